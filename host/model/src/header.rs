//! The header (01, Header; 02, 6/13 and 7/13; 003, 2.2.2.5 and 2.2.2.6).

use crate::bytes::{u16_at, u32_at};
use crate::checksum::{checksum, extend};
use crate::coding::CYCLIC;
use crate::edition::{Edition, VERSION};
use crate::refusal::{demand, Answer, Refusal};

pub use crate::edition::Reference;

pub const LEAST_IMAGE: usize = 564;
pub const MOST_IMAGE: usize = 1_073_741_824;
pub const MAGIC: [u8; 4] = [0x21, 0x42, 0x44, 0x4E];
pub const CLIENT_MAGIC: [u8; 2] = [0x53, 0x4D];
pub const SENTINEL: u8 = 0x80;

#[derive(Clone, Copy, PartialEq, Eq, Debug)]
pub struct Header {
    pub method: u8,
    pub nodes: Reference,
    pub blocks: Reference,
    /// The end-of-file number.
    pub end: u64,
    pub edition: Edition,
}

pub fn header(image: &[u8]) -> Answer<Header> {
    demand((LEAST_IMAGE..=MOST_IMAGE).contains(&image.len()), 1, 0)?;
    demand(image[0..4] == MAGIC, 2, 0)?;
    demand(image[8..10] == CLIENT_MAGIC, 2, 8)?;
    let edition = Edition::of_version(u16_at(image, VERSION));
    let edition = edition.ok_or(Refusal::new(3, VERSION as u64))?;
    let layout = edition.layout();
    let places = &layout.header;
    check_sums(image, places.full_sum)?;
    let [sentinel, method] = [places.sentinel, places.sentinel + 1];
    demand(image[sentinel] == SENTINEL, 5, sentinel as u64)?;
    demand(image[method] <= CYCLIC, 5, method as u64)?;
    let end = layout.number_at(image, places.end);
    demand(end <= image.len() as u64, 1, places.end as u64)?;
    Ok(Header {
        method: image[method],
        nodes: layout.reference_at(image, places.nodes),
        blocks: layout.reference_at(image, places.blocks),
        end,
        edition,
    })
}

fn check_sums(image: &[u8], full_sum: Option<usize>) -> Answer<()> {
    let partial = checksum(&image[8..8 + 471]);
    demand(u32_at(image, 4) == partial, 4, 4)?;
    let Some(place) = full_sum else {
        return Ok(());
    };
    let full = extend(partial, &image[8 + 471..8 + 516]);
    demand(u32_at(image, place) == full, 4, place as u64)
}

/// The image up to where the file ends: at the end-of-file number, or at the image's end where that
/// comes first. Whether the header is accepted makes no difference; an image too short to have the
/// number is all file.
pub fn file(image: &[u8]) -> &[u8] {
    let layout = Edition::of(image).layout();
    let place = layout.header.end;
    let field = image.get(place..place + layout.width);
    let length = image.len() as u64;
    let end = field.map_or(length, |field| layout.number_at(field, 0).min(length));
    &image[..end as usize]
}
