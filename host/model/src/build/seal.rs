//! Checksums and signatures put right again after an edit: by a layout, or by that of the image's version.

use crate::bytes::put;
use crate::checksum::{checksum, signature};
use crate::edition::{Edition, Layout};
use crate::page::PAGE;

impl Layout {
    /// Both checksums where the edition has two.
    pub fn seal_header(&self, image: &mut [u8]) {
        let partial = checksum(&image[8..8 + 471]);
        put(image, 4, &partial.to_le_bytes());
        if let Some(place) = self.header.full_sum {
            let full = checksum(&image[8..8 + 516]);
            put(image, place, &full.to_le_bytes());
        }
    }

    /// Puts the end-of-file number into the header and leaves its checksums as they are.
    pub fn put_end(&self, image: &mut [u8], end: u64) {
        self.put_number(image, self.header.end, end);
    }

    /// The page's signature, by its offset and the number in it, and its checksum.
    pub fn seal_page(&self, image: &mut [u8], offset: usize) {
        let page = &mut image[offset..offset + PAGE];
        let signed = signature(offset as u64, self.number_at(page, self.page.number));
        put(page, self.page.signature, &signed.to_le_bytes());
        let sum = checksum(&page[..self.page.summed]);
        put(page, self.page.sum, &sum.to_le_bytes());
    }

    /// A whole trailer for the stored bytes of a block.
    pub fn seal_block(&self, image: &mut [u8], offset: usize, size: u16, number: u64) {
        let sum = checksum(&image[offset..offset + usize::from(size)]);
        let trailer = self.trailer_at(offset, size);
        let signed = signature(offset as u64, number);
        put(image, trailer, &size.to_le_bytes());
        put(image, trailer + 2, &signed.to_le_bytes());
        put(image, trailer + self.trailer.sum, &sum.to_le_bytes());
        self.put_number(image, trailer + self.trailer.number, number);
    }
}

fn layout_of(image: &[u8]) -> &'static Layout {
    Edition::of(image).layout()
}

pub fn seal_header(image: &mut [u8]) {
    layout_of(image).seal_header(image);
}

/// Puts the end-of-file number into the header and seals it.
pub fn set_end(image: &mut [u8], end: u64) {
    put_end(image, end);
    seal_header(image);
}

pub fn put_end(image: &mut [u8], end: u64) {
    layout_of(image).put_end(image, end);
}

pub fn seal_page(image: &mut [u8], offset: usize) {
    layout_of(image).seal_page(image, offset);
}

pub fn seal_block(image: &mut [u8], offset: usize, size: u16, number: u64) {
    layout_of(image).seal_block(image, offset, size, number);
}
