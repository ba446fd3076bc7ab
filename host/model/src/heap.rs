//! A heap on one decoded block of either edition (01, Heap and properties; 02, 7/13; 003, 2.3.1).

use crate::bytes::{u16_at, u32_at};
use crate::refusal::{Answer, Refusal};

pub const LEAST_HEAP: usize = 12;
pub const MOST_HEAP: usize = 8180;
pub const HEAP_MARK: u8 = 0xEC;
pub const MOST_ITEMS: usize = 2047;

/// Where an item stands in the caller's block.
#[derive(Clone, Copy, PartialEq, Eq, Debug)]
pub struct Item {
    pub start: usize,
    pub length: usize,
}

pub fn test_heap(block: &[u8]) -> Answer<()> {
    Heap::test(block).map(|_| ())
}

pub fn test_item(block: &[u8], number: u32) -> Answer<()> {
    item(block, number).map(|_| ())
}

pub fn item(block: &[u8], number: u32) -> Answer<Item> {
    Heap::test(block)?.item(number)
}

/// A block whose shape as a heap has been tested.
pub(crate) struct Heap<'a> {
    block: &'a [u8],
    offsets: &'a [u8],
}

impl<'a> Heap<'a> {
    pub fn test(block: &'a [u8]) -> Answer<Self> {
        let heap = Self::shaped(block).filter(Heap::offsets_right);
        heap.ok_or(Refusal::new(18, 0))
    }

    fn shaped(block: &'a [u8]) -> Option<Self> {
        let sized = (LEAST_HEAP..=MOST_HEAP).contains(&block.len());
        if !sized || block[2] != HEAP_MARK {
            return None;
        }
        let map = block.get(usize::from(u16_at(block, 0))..)?;
        let items = usize::from(u16_at(map.get(..4)?, 0));
        let offsets = map[4..].get(..2 * (items + 1))?;
        (items <= MOST_ITEMS).then_some(Heap { block, offsets })
    }

    fn offsets_right(&self) -> bool {
        let map = self.map();
        let ascending = (0..self.items()).all(|at| self.offset(at) <= self.offset(at + 1));
        map >= 12 && ascending && self.offset(0) >= 12 && self.offset(self.items()) <= map
    }

    fn map(&self) -> usize {
        usize::from(u16_at(self.block, 0))
    }

    fn items(&self) -> usize {
        self.offsets.len() / 2 - 1
    }

    fn offset(&self, at: usize) -> usize {
        usize::from(u16_at(self.offsets, 2 * at))
    }

    pub fn client_kind(&self) -> u8 {
        self.block[3]
    }

    pub fn user_root(&self) -> u32 {
        u32_at(self.block, 4)
    }

    pub fn item(&self, number: u32) -> Answer<Item> {
        let (kind, index, block) = (number & 31, (number >> 5) as usize & 2047, number >> 16);
        if kind != 0 || block != 0 || index == 0 || index > self.items() {
            return Err(Refusal::new(19, 0));
        }
        let start = self.offset(index - 1);
        let length = self.offset(index) - start;
        Ok(Item { start, length })
    }

    pub fn bytes(&self, number: u32) -> Answer<&'a [u8]> {
        let Item { start, length } = self.item(number)?;
        Ok(&self.block[start..start + length])
    }
}
