//! The items of a heap that is being filled: trees of them, and their layout in a block.

use crate::bytes::put;
use crate::heap::HEAP_MARK;
use crate::heap_tree::TREE_MARK;
use crate::random::Random;

/// One item of a tree on a heap.
#[derive(Clone, Copy, Debug)]
pub struct TreeItem {
    pub item: u32,
    pub level: u8,
    pub records: usize,
}

/// What a tree on a heap is to hold: the bytes of a key and of what a leaf record has behind it, the
/// index levels, and the leaf records with their keys in front.
pub struct GivenTree {
    pub key: u8,
    pub entry: u8,
    pub levels: u8,
    pub records: Vec<(u32, Vec<u8>)>,
}

pub struct Items<'a> {
    pub random: &'a mut Random,
    /// No gaps, no items that nothing names, and index keys that are the first keys of their children.
    pub tidy: bool,
    pub list: Vec<Vec<u8>>,
    pub tree: Vec<TreeItem>,
}

impl<'a> Items<'a> {
    pub fn new(random: &'a mut Random, tidy: bool) -> Self {
        let before = if tidy { 0 } else { random.below(3) };
        let list = (0..before).map(|_| small_item(random)).collect();
        Self {
            random,
            tidy,
            list,
            tree: Vec::new(),
        }
    }

    /// The number of the new item.
    pub fn add(&mut self, item: Vec<u8>) -> u32 {
        self.list.push(item);
        (self.list.len() as u32) << 5
    }

    pub fn set(&mut self, number: u32, item: Vec<u8>) {
        self.list[(number >> 5) as usize - 1] = item;
    }

    /// Adds the items of a tree and answers the tree's own record.
    pub fn add_tree(&mut self, given: &GivenTree) -> Vec<u8> {
        let root = if given.records.is_empty() {
            0
        } else {
            self.grow(given, &given.records, given.levels, 0)
        };
        let mut record = vec![TREE_MARK, given.key, given.entry, given.levels];
        record.extend_from_slice(&root.to_le_bytes());
        record
    }

    /// Adds the items over some of the records and answers the number of their root. `low` is where
    /// its range begins.
    fn grow(&mut self, given: &GivenTree, records: &[(u32, Vec<u8>)], level: u8, low: u32) -> u32 {
        let width = usize::from(given.key);
        let mut own = Vec::new();
        if level == 0 {
            own.extend(records.iter().flat_map(|record| record.1.clone()));
        } else {
            let (mut rest, mut low) = (records, low);
            while let Some(first) = rest.first() {
                let most = rest.len().div_ceil(if level == 1 { 2 } else { 1 });
                let (part, behind) = rest.split_at(self.random.between(most.div_ceil(2), most));
                let key = self.key_between(low, first.0);
                let child = self.grow(given, part, level - 1, key);
                own.extend_from_slice(&key.to_le_bytes()[..width]);
                own.extend_from_slice(&child.to_le_bytes());
                low = part[part.len() - 1].0.saturating_add(1);
                rest = behind;
            }
        }
        let size = width + usize::from(if level == 0 { given.entry } else { 4 });
        let records = own.len() / size;
        let item = self.add(own);
        self.tree.push(TreeItem {
            item,
            level,
            records,
        });
        item
    }

    fn key_between(&mut self, low: u32, first: u32) -> u32 {
        if self.tidy || low >= first || self.random.one_in(2) {
            first
        } else {
            low + self.random.below((first - low) as usize) as u32
        }
    }

    pub fn lay_out(&mut self, kind: u8, user_root: u32) -> Vec<u8> {
        lay_out(self.random, &self.list, kind, user_root, self.tidy)
    }
}

pub fn small_item(random: &mut Random) -> Vec<u8> {
    let length = random.below(40);
    random.bytes(length)
}

pub fn lay_out(
    random: &mut Random,
    items: &[Vec<u8>],
    kind: u8,
    user_root: u32,
    tidy: bool,
) -> Vec<u8> {
    let gap = |random: &mut Random| {
        if tidy || random.one_in(2) {
            0
        } else {
            random.below(8)
        }
    };
    let mut block = vec![0, 0, HEAP_MARK, kind];
    block.extend_from_slice(&user_root.to_le_bytes());
    block.resize(12 + gap(random), 0);
    let mut map = (items.len() as u16).to_le_bytes().to_vec();
    map.extend_from_slice(&(gap(random) as u16).to_le_bytes());
    for item in items {
        map.extend_from_slice(&(block.len() as u16).to_le_bytes());
        block.extend_from_slice(item);
    }
    map.extend_from_slice(&(block.len() as u16).to_le_bytes());
    let odd = if tidy { block.len() % 2 } else { gap(random) };
    block.resize(block.len() + odd, 0);
    let at = block.len() as u16;
    put(&mut block, 0, &at.to_le_bytes());
    block.extend_from_slice(&map);
    block.resize(block.len() + gap(random), 0xA5);
    block
}
