//! Blocks and data trees.

use super::pages::Entry;
use super::seal::seal_block;
use super::space::Space;
use super::{without_bit_0, PlacedBlock};
use crate::block::is_internal;
use crate::bytes::put;
use crate::coding::encode;
use crate::edition::Layout;
use std::collections::BTreeSet;

pub struct Blocks {
    pub method: u8,
    pub placed: Vec<PlacedBlock>,
    /// Their numbers without bit 0.
    taken: BTreeSet<u64>,
}

impl Blocks {
    pub fn new(method: u8) -> Self {
        Self {
            method,
            placed: Vec::new(),
            taken: BTreeSet::new(),
        }
    }

    /// Puts a block into the image and answers the number that is listed.
    pub fn place(&mut self, space: &mut Space, data: Vec<u8>, internal: bool) -> u64 {
        let number = self.number(space, internal);
        self.place_as(space, number, data);
        number
    }

    pub fn place_as(&mut self, space: &mut Space, number: u64, data: Vec<u8>) {
        let (size, layout) = (data.len() as u16, space.layout);
        let offset = space.take(layout.room(u32::from(size)) as usize);
        let mut stored = data.clone();
        if !is_internal(number) {
            encode(self.method, number, &mut stored).expect("a method of 0 to 2");
        }
        put(&mut space.bytes, offset, &stored);
        seal_block(&mut space.bytes, offset, size, number);
        let in_trailer = space.loosen(number);
        let place = layout.trailer_at(offset, size) + layout.trailer.number;
        layout.put_number(&mut space.bytes, place, in_trailer);
        let references = if space.tidy {
            2
        } else {
            space.random.number() as u16
        };
        self.placed.push(PlacedBlock {
            number,
            offset,
            size,
            references,
            data,
        });
    }

    /// Puts a data tree over those blocks into the image and answers its number.
    pub fn place_tree(&mut self, space: &mut Space, children: &[u64], sum: u32) -> u64 {
        self.place(space, tree_bytes(space.layout, children, sum), true)
    }

    fn number(&mut self, space: &mut Space, internal: bool) -> u64 {
        loop {
            let number = match space.random.below(8) {
                0 if !space.tidy => space.any_number() & !2,
                1 if !space.tidy => space.any_number() & 0xFFFD,
                _ => 4 * (self.taken.len() as u64 + 1),
            } | if internal { 2 } else { 0 };
            // Node data takes a data block of 0 or 1 for none.
            if number > 1 && self.taken.insert(without_bit_0(number)) {
                return space.loosen(number);
            }
        }
    }

    /// The leaf entries of the BBT, by their keys.
    pub fn entries(&self, space: &mut Space) -> Vec<Entry> {
        let mut entries: Vec<Entry> = self
            .placed
            .iter()
            .map(|block| entry(block, space))
            .collect();
        entries.sort_by_key(|entry| entry.key);
        entries
    }
}

pub fn tree_bytes(layout: &Layout, children: &[u64], sum: u32) -> Vec<u8> {
    let mut bytes = vec![0; 8 + layout.width * children.len()];
    put(&mut bytes, 0, &[1, 1]);
    put(&mut bytes, 2, &(children.len() as u16).to_le_bytes());
    put(&mut bytes, 4, &sum.to_le_bytes());
    for (at, &child) in children.iter().enumerate() {
        layout.put_number(&mut bytes, 8 + layout.width * at, child);
    }
    bytes
}

fn entry(block: &PlacedBlock, space: &mut Space) -> Entry {
    let layout = space.layout;
    // Padding may hold anything.
    let mut bytes = space.fresh(layout.block_leaf.size);
    let counts = 2 * layout.width;
    layout.put_number(&mut bytes, 0, block.number);
    layout.put_number(&mut bytes, layout.width, block.offset as u64);
    put(&mut bytes, counts, &block.size.to_le_bytes());
    put(&mut bytes, counts + 2, &block.references.to_le_bytes());
    Entry {
        key: block.number,
        bytes,
    }
}
