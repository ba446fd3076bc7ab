//! Trees of pages, from a list of leaf entries.

use super::seal::seal_page;
use super::space::Space;
use super::{without_bit_0, PlacedPage};
use crate::bytes::put;
use crate::edition::{Entries, Layout, Reference};
use crate::page::{Tree, MOST_LEVEL, PAGE};

/// A leaf or index entry, and its key as stored; of a node the low four bytes.
#[derive(Clone, Debug)]
pub struct Entry {
    pub key: u64,
    pub bytes: Vec<u8>,
}

pub struct Grower<'a> {
    pub space: &'a mut Space,
    pub tree: Tree,
    pub pages: &'a mut Vec<PlacedPage>,
    /// How many entries more than it needs an index page may have.
    pub most_spare: usize,
}

/// The lowest level of a root over so many entries.
pub fn least_level(layout: &Layout, tree: Tree, entries: usize) -> u8 {
    (0..MOST_LEVEL)
        .find(|&level| entries <= capacity(layout, tree, level))
        .unwrap_or(MOST_LEVEL)
}

fn capacity(layout: &Layout, tree: Tree, level: u8) -> usize {
    layout.entries(tree, 0).most * layout.index.most.pow(u32::from(level))
}

impl Grower<'_> {
    /// Writes the pages over the entries, children before their parent. `low` is where the page's
    /// range begins, `before` the last leaf key to the left of the page.
    pub fn grow(
        &mut self,
        entries: &[Entry],
        level: u8,
        low: u64,
        before: Option<u64>,
    ) -> Reference {
        if level == 0 {
            return self.write(entries, level);
        }
        let most = capacity(self.space.layout, self.tree, level - 1);
        let parts = self.split(entries.len(), most);
        let (mut rest, mut low, mut before) = (entries, low, before);
        let mut index = Vec::new();
        for part in parts {
            let (own, behind) = rest.split_at(part);
            let key = self.key_between(low, own[0].key);
            let child = self.grow(own, level - 1, key, before);
            index.push(self.index_entry(key, before, child));
            let last = own[own.len() - 1].key;
            (low, before) = (last.saturating_add(1), Some(last));
            rest = behind;
        }
        self.write(&index, level)
    }

    /// Cuts so many entries into at most as many parts as an index page has room for; each holds 1 to
    /// `most`.
    fn split(&mut self, entries: usize, most: usize) -> Vec<usize> {
        let least = entries.div_ceil(most);
        let parts = if self.space.tidy {
            least
        } else {
            let room = self.space.layout.index.most;
            let highest = (least + self.most_spare).min(entries).min(room).max(least);
            self.space.random.between(least, highest)
        };
        let mut left = entries;
        (0..parts)
            .map(|at| {
                let behind = parts - at - 1;
                let low = left.saturating_sub(behind * most).max(1);
                let high = most.min(left - behind);
                let part = if self.space.tidy {
                    high
                } else {
                    self.space.random.between(low, high)
                };
                left -= part;
                part
            })
            .collect()
    }

    /// An index entry's key: mostly its child's first, else any that the range allows.
    fn key_between(&mut self, low: u64, first: u64) -> u64 {
        let random = &mut self.space.random;
        if self.space.tidy || random.one_in(2) || low >= first {
            first
        } else {
            low + random.number() % (first - low)
        }
    }

    fn index_entry(&mut self, key: u64, before: Option<u64>, child: Reference) -> Entry {
        let (key, stored) = match self.tree {
            Tree::Blocks => {
                let key = self.space.loosen(apart(key, before));
                (key, key)
            }
            Tree::Nodes if !self.space.tidy && self.space.random.one_in(4) => {
                (key, key | (self.space.random.number() << 32))
            }
            Tree::Nodes => (key, key),
        };
        let layout = self.space.layout;
        let mut bytes = vec![0; layout.index.size];
        let fields = [stored, child.number, child.offset];
        for (at, field) in fields.into_iter().enumerate() {
            layout.put_number(&mut bytes, at * layout.width, field);
        }
        Entry { key, bytes }
    }

    fn write(&mut self, entries: &[Entry], level: u8) -> Reference {
        let offset = self.space.take(PAGE);
        let number = self.number();
        let layout = self.space.layout;
        let Entries { size, most } = layout.entries(self.tree, level);
        let room = if self.space.tidy {
            most
        } else {
            self.space.random.between(entries.len(), most)
        };
        let page = &mut self.space.bytes[offset..offset + PAGE];
        for (at, entry) in entries.iter().enumerate() {
            put(page, at * size, &entry.bytes);
        }
        let counts = [entries.len() as u8, room as u8, size as u8, level];
        put(page, layout.page.counts, &counts);
        put(page, layout.page.kinds, &[self.tree.kind(); 2]);
        layout.put_number(page, layout.page.number, number);
        seal_page(&mut self.space.bytes, offset);
        self.pages.push(PlacedPage {
            tree: self.tree,
            offset,
            level,
            is_root: false,
            keys: entries.iter().map(|entry| entry.key).collect(),
        });
        Reference {
            number,
            offset: offset as u64,
        }
    }

    fn number(&mut self) -> u64 {
        if self.space.tidy || self.space.random.one_in(2) {
            0x200 + self.pages.len() as u64
        } else {
            self.space.any_number()
        }
    }
}

/// A key of the BBT that is not the one before it, whatever bit 0 is.
fn apart(key: u64, before: Option<u64>) -> u64 {
    let equal = before.is_some_and(|before| without_bit_0(before) == without_bit_0(key));
    key + u64::from(equal)
}
