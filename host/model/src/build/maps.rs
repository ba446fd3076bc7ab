//! Allocation maps, which no rule here looks at (003, 2.2.2.7.1 to 2.2.2.7.6).

use crate::bytes::put;
use crate::checksum::{checksum, signature};
use crate::edition::Edition;
use crate::page::PAGE;

pub const DENSITY_LIST: u8 = 0x86;

/// Puts a map of that kind and number there, with a right checksum. The density list is signed like a page
/// of a tree, the others are not.
pub fn put_map(image: &mut [u8], offset: usize, kind: u8, number: u64) {
    let layout = Edition::of(image).layout();
    let page = &mut image[offset..offset + PAGE];
    page.fill(0x5A);
    put(page, layout.page.kinds, &[kind; 2]);
    layout.put_number(page, layout.page.number, number);
    let signed = match kind {
        DENSITY_LIST => signature(offset as u64, number),
        _ => 0,
    };
    put(page, layout.page.signature, &signed.to_le_bytes());
    let sum = checksum(&page[..layout.page.summed]);
    put(page, layout.page.sum, &sum.to_le_bytes());
}
