//! Blocks: lookup, test and reading (01, Blocks and their encoding; 02, 6/13 and 7/13; 003, 2.2.2.8).
//! `file` is an image up to where the file ends, under a header that has been accepted.

use crate::bytes::{u16_at, u32_at};
use crate::checksum::{checksum, signature};
use crate::coding::{decode, NONE};
use crate::edition::{Edition, Layout};
use crate::header::{file, header, Header};
use crate::page::{Tree, FIRST_OFFSET, STEP};
use crate::refusal::{demand, Answer, Refusal};
use crate::tree::{self, Lookup};

/// A block as the BBT lists it.
#[derive(Clone, Copy, PartialEq, Eq, Debug)]
pub struct Block {
    pub block: u64,
    pub offset: u64,
    pub size: u16,
    pub references: u16,
}

/// The smallest multiple of 64 that holds size + 16.
pub fn room(size: u32) -> u64 {
    Edition::Bits64.layout().room(size)
}

/// The smallest multiple of 64 that holds size + 12.
pub fn room32(size: u32) -> u64 {
    Edition::Bits32.layout().room(size)
}

pub fn is_internal(block: u64) -> bool {
    block & 2 != 0
}

pub fn find_block(image: &[u8], block: u64) -> Answer<Lookup<Block>> {
    let header = header(image)?;
    find(file(image), &header, block)
}

/// The first block whose number, without bit 0, is at least `from` as given: one above the number
/// found moves on.
pub fn next_block(image: &[u8], from: u64) -> Answer<Lookup<Block>> {
    let header = header(image)?;
    let found = tree::next(file(image), &header, Tree::Blocks, from)?;
    Ok(found.map(|entry| listed(entry, header.edition.layout())))
}

/// The size of a block that passes every test.
pub fn test_block(image: &[u8], block: u64) -> Answer<u16> {
    let header = header(image)?;
    Ok(Tested::new(file(image), &header, block)?.listed.size)
}

/// The number of bytes put at the front of `out`.
pub fn read_block(image: &[u8], block: u64, out: &mut [u8]) -> Answer<usize> {
    let header = header(image)?;
    let tested = Tested::new(file(image), &header, block)?;
    let needed = tested.stored.len();
    let out = out.get_mut(..needed).ok_or(Refusal::short(needed))?;
    tested.decode_into(header.method, out)?;
    Ok(needed)
}

fn find(file: &[u8], header: &Header, block: u64) -> Answer<Lookup<Block>> {
    let found = tree::find(file, header, Tree::Blocks, block)?;
    Ok(found.map(|entry| listed(entry, header.edition.layout())))
}

fn listed(entry: &[u8], layout: &Layout) -> Block {
    let counts = 2 * layout.width;
    Block {
        block: layout.number_at(entry, 0),
        offset: layout.number_at(entry, layout.width),
        size: u16_at(entry, counts),
        references: u16_at(entry, counts + 2),
    }
}

/// A block that has passed 12 to 15, and its bytes as stored.
pub(crate) struct Tested<'a> {
    pub listed: Block,
    pub stored: &'a [u8],
}

impl<'a> Tested<'a> {
    pub fn new(file: &'a [u8], header: &Header, block: u64) -> Answer<Self> {
        let listed = find(file, header, block)?
            .found()
            .ok_or(Refusal::new(12, 0))?;
        let place = listed.offset;
        let layout = header.edition.layout();
        let room = room_in(file, layout, &listed).ok_or(Refusal::new(13, place))?;
        let (stored, rest) = room.split_at(usize::from(listed.size));
        let trailer = &rest[rest.len() - layout.trailer.length..];
        demand(is_trailer_of(trailer, layout, &listed), 14, place)?;
        let sum = u32_at(trailer, layout.trailer.sum);
        demand(sum == checksum(stored), 15, place)?;
        Ok(Tested { listed, stored })
    }

    /// `out` is as long as the block.
    pub fn decode_into(&self, method: u8, out: &mut [u8]) -> Answer<()> {
        out.copy_from_slice(self.stored);
        let internal = is_internal(self.listed.block);
        let method = if internal { NONE } else { method };
        decode(method, self.listed.block, out)
    }
}

/// The bytes from the block's first to its trailer's last, where 13 does not apply.
fn room_in<'a>(file: &'a [u8], layout: &Layout, listed: &Block) -> Option<&'a [u8]> {
    let Block { offset, size, .. } = *listed;
    let sized = (1..=layout.most_size).contains(&size);
    let allowed = sized && offset.is_multiple_of(STEP) && offset >= FIRST_OFFSET;
    let end = offset.checked_add(layout.room(u32::from(size)))?;
    if allowed && end <= file.len() as u64 {
        Some(&file[offset as usize..end as usize])
    } else {
        None
    }
}

/// The signature is that of the number as listed; the number itself is compared without bit 0.
fn is_trailer_of(trailer: &[u8], layout: &Layout, listed: &Block) -> bool {
    let number = layout.number_at(trailer, layout.trailer.number);
    u16_at(trailer, 0) == listed.size
        && u16_at(trailer, 2) == signature(listed.offset, listed.block)
        && Tree::Blocks.key(number) == Tree::Blocks.key(listed.block)
}
