//! One page and its full check (01, Pages and trees; 02, 2/13, 6/13 and 7/13; 003, 2.2.2.7).

use crate::bytes::{u16_at, u32_at};
use crate::checksum::{checksum, signature};
use crate::edition::{Layout, Reference};
use crate::refusal::{demand, Answer, Refusal};

pub const PAGE: usize = 512;
pub const FIRST_OFFSET: u64 = 0x4400;
pub const STEP: u64 = 64;
pub const MOST_LEVEL: u8 = 7;

#[derive(Clone, Copy, PartialEq, Eq, PartialOrd, Ord, Debug)]
pub enum Tree {
    Nodes,
    Blocks,
}

impl Tree {
    pub fn kind(self) -> u8 {
        match self {
            Tree::Nodes => 0x81,
            Tree::Blocks => 0x80,
        }
    }

    /// The part of a number that is compared: of a node's the low four bytes, of a block's all but
    /// bit 0, which counts as zero.
    pub fn key(self, number: u64) -> u64 {
        match self {
            Tree::Nodes => number & 0xFFFF_FFFF,
            Tree::Blocks => number & !1,
        }
    }
}

/// The keys that a page may hold; no end means that every key from `low` on is allowed.
#[derive(Clone, Copy, PartialEq, Eq, Debug)]
pub struct Range {
    pub low: u64,
    pub end: Option<u64>,
}

impl Range {
    pub const ALL: Range = Range { low: 0, end: None };

    pub fn holds(self, key: u64) -> bool {
        self.low <= key && self.end.is_none_or(|end| key < end)
    }
}

/// A page that is still to be read: where it stands and what it must be.
#[derive(Clone, Copy, Debug)]
pub struct Sought {
    pub layout: &'static Layout,
    pub reference: Reference,
    /// None at the root, where any level is allowed.
    pub level: Option<u8>,
    pub range: Range,
}

/// A page that has passed its check, or all of it but the keys.
#[derive(Clone, Copy, Debug)]
pub struct Page<'a> {
    bytes: &'a [u8],
    layout: &'static Layout,
    tree: Tree,
    place: u64,
    range: Range,
    /// The bytes of an entry.
    size: usize,
    pub level: u8,
    pub count: usize,
}

impl<'a> Page<'a> {
    /// The full check: refusals 6 to 10 in their order, then the keys. `file` is the image up to where
    /// the file ends.
    pub fn check(file: &'a [u8], tree: Tree, sought: Sought) -> Answer<Self> {
        let page = Self::shaped(file, tree, sought)?;
        page.check_keys()?;
        Ok(page)
    }

    /// A page whose keys are still to be tested.
    pub fn shaped(file: &'a [u8], tree: Tree, sought: Sought) -> Answer<Self> {
        let place = sought.reference.offset;
        let layout = sought.layout;
        demand(offset_allowed(file, place), 6, place)?;
        let bytes = &file[place as usize..place as usize + PAGE];
        demand(is_of_kind(bytes, layout, tree), 7, place)?;
        demand(is_numbered(bytes, layout, sought.reference), 8, place)?;
        let sum = checksum(&bytes[..layout.page.summed]);
        demand(u32_at(bytes, layout.page.sum) == sum, 9, place)?;
        demand(counts_right(bytes, layout, tree, sought.level), 10, place)?;
        let [count, _, _, level] = counts(bytes, layout);
        Ok(Page {
            bytes,
            layout,
            tree,
            place,
            range: sought.range,
            size: layout.entries(tree, level).size,
            level,
            count: usize::from(count),
        })
    }

    /// 11 and 21, entry by entry from left to right, at each its order before its range.
    pub fn check_keys(&self) -> Answer<()> {
        for at in 0..self.count {
            if self.breaks_order(at) {
                return Err(Refusal::key_order(self.place, at));
            }
            if self.breaks_range(at) {
                return Err(Refusal::key_range(self.place, at));
            }
        }
        Ok(())
    }

    /// Whether the key is not above the one before it.
    pub fn breaks_order(&self, at: usize) -> bool {
        at > 0 && self.key(at) <= self.key(at - 1)
    }

    pub fn breaks_range(&self, at: usize) -> bool {
        !self.range.holds(self.key(at))
    }

    pub fn entry(&self, at: usize) -> &'a [u8] {
        &self.bytes[at * self.size..(at + 1) * self.size]
    }

    pub fn key(&self, at: usize) -> u64 {
        let stored = self.layout.number_at(self.bytes, at * self.size);
        self.tree.key(stored)
    }

    /// The child that an entry of an index page names; None in a leaf.
    pub fn child(&self, at: usize) -> Option<Sought> {
        let end = if at + 1 < self.count {
            Some(self.key(at + 1))
        } else {
            self.range.end
        };
        Some(Sought {
            layout: self.layout,
            level: Some(self.level.checked_sub(1)?),
            reference: self.layout.reference_at(self.entry(at), self.layout.width),
            range: Range {
                low: self.key(at),
                end,
            },
        })
    }

    /// The last entry whose key is at most the key sought.
    pub fn last_at_most(&self, key: u64) -> Option<usize> {
        (0..self.count).take_while(|&at| self.key(at) <= key).last()
    }

    pub fn first_at_least(&self, key: u64) -> Option<usize> {
        (0..self.count).find(|&at| self.key(at) >= key)
    }
}

fn offset_allowed(file: &[u8], offset: u64) -> bool {
    let inside = offset
        .checked_add(PAGE as u64)
        .is_some_and(|end| end <= file.len() as u64);
    offset.is_multiple_of(STEP) && offset >= FIRST_OFFSET && inside
}

fn is_of_kind(bytes: &[u8], layout: &Layout, tree: Tree) -> bool {
    let at = layout.page.kinds;
    bytes[at..at + 2] == [tree.kind(); 2]
}

fn is_numbered(bytes: &[u8], layout: &Layout, reference: Reference) -> bool {
    let Reference { number, offset } = reference;
    layout.number_at(bytes, layout.page.number) == number
        && u16_at(bytes, layout.page.signature) == signature(offset, number)
}

/// Count, room, entry size and level.
fn counts(bytes: &[u8], layout: &Layout) -> [u8; 4] {
    [0, 1, 2, 3].map(|at| bytes[layout.page.counts + at])
}

fn counts_right(bytes: &[u8], layout: &Layout, tree: Tree, level: Option<u8>) -> bool {
    let [count, room, size, own] = counts(bytes, layout);
    let entries = layout.entries(tree, own);
    let least = u8::from(level.is_some() || own > 0);
    level.map_or(own <= MOST_LEVEL, |level| own == level)
        && usize::from(size) == entries.size
        && usize::from(room) <= entries.most
        && (least..=room).contains(&count)
}
