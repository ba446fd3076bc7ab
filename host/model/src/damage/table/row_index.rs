//! Damage to the row index, which is made anew for it.

use super::{Spoiler, TableDamage, ROW_INDEX};
use crate::bytes::put;
use crate::heap_tree::{MOST_INDEX_LEVELS, TREE_MARK};
use std::collections::BTreeSet;
use TableDamage::*;

/// Leaf records under the keys of one index item; one leaf where there are no index levels.
struct RowIndex {
    levels: u8,
    leaves: Vec<Vec<(u32, u32)>>,
    keys: Vec<u32>,
}

impl RowIndex {
    /// Six rows in three leaves, or in one.
    fn new(ids: &BTreeSet<u32>, levels: u8) -> Self {
        let rows: Vec<_> = ids.iter().copied().zip(0..).collect();
        let leaves = rows.chunks(if levels == 0 { rows.len() } else { 2 });
        let leaves: Vec<_> = leaves.map(<[_]>::to_vec).collect();
        Self {
            levels,
            keys: leaves.iter().map(|leaf| leaf[0].0).collect(),
            leaves,
        }
    }

    fn ids(&self, leaf: usize) -> Vec<u32> {
        self.leaves[leaf].iter().map(|record| record.0).collect()
    }
}

/// The items of the row index.
struct Placed {
    record: u32,
    root: u32,
    /// The item that names the leaves.
    index: Option<u32>,
    leaves: Vec<u32>,
}

impl Spoiler<'_> {
    /// A damage to something else leaves the row index sound.
    pub(super) fn spoil_row_index(&mut self, damage: TableDamage) {
        let levels = match damage {
            IndexLevels => MOST_INDEX_LEVELS + u8::from(self.refused()),
            IndexChild | IndexKeyBelow | IndexKeyAtEnd => self.random.between(1, 3) as u8,
            _ => self.random.below(4) as u8,
        };
        let mut ids: BTreeSet<_> = self.ids.iter().copied().collect();
        while ids.len() < 6 {
            ids.insert(self.random.number() as u32);
        }
        let mut index = RowIndex::new(&ids, levels);
        let leaf = self.random.below(index.leaves.len());
        self.ids = index.ids(leaf);
        if !ROW_INDEX.contains(&damage) {
            self.place(&index);
        } else if matches!(damage, IndexKeyEqual | IndexKeyFalling) {
            self.order(damage, &mut index, leaf);
            self.place(&index);
        } else if matches!(damage, IndexKeyBelow | IndexKeyAtEnd) {
            self.range(damage, &mut index, leaf);
            self.place(&index);
        } else {
            let placed = self.place(&index);
            self.spoil_items(damage, &placed, leaf);
        }
    }

    fn place(&mut self, index: &RowIndex) -> Placed {
        let width = self.edition.layout().row_number;
        let leaves = index.leaves.iter();
        let leaves: Vec<_> = leaves.map(|leaf| self.add(records(leaf, width))).collect();
        let (mut root, mut named) = (leaves[0], None);
        if index.levels > 0 {
            let keys = index.keys.iter().copied();
            let children: Vec<_> = keys.zip(leaves.iter().copied()).collect();
            root = self.add(records(&children, 4));
            named = Some(root);
        }
        for _ in 1..index.levels {
            root = self.add(records(&[(index.keys[0], root)], 4));
        }
        let mut record = vec![TREE_MARK, 4, width as u8, index.levels];
        record.extend_from_slice(&root.to_le_bytes());
        self.row_index = self.add(record);
        Placed {
            record: self.row_index,
            root,
            index: named,
            leaves,
        }
    }

    /// Two keys of a leaf, or of the item that names the leaves, equal or exchanged; or one just above the
    /// other.
    fn order(&mut self, damage: TableDamage, index: &mut RowIndex, leaf: usize) {
        let named = index.keys.len() > 1 && self.random.one_in(2);
        let records = &mut index.leaves[leaf];
        if !self.refused() {
            if damage == IndexKeyEqual {
                records[1].0 = records[0].0 + 1;
            }
            self.ids = index.ids(leaf);
        } else if damage == IndexKeyEqual && named {
            index.keys[1] = index.keys[0];
        } else if damage == IndexKeyEqual {
            records[1].0 = records[0].0;
        } else if named {
            index.keys.swap(1, 2);
        } else {
            records.swap(0, 1);
        }
    }

    /// A leaf's first key just below its range, or its last key where the range ends; or just inside.
    fn range(&mut self, damage: TableDamage, index: &mut RowIndex, leaf: usize) {
        let refused = self.refused();
        if damage == IndexKeyBelow {
            let [first, second] = [0, 1].map(|at| index.leaves[leaf][at].0);
            index.keys[leaf] = first + u32::from(refused);
            self.ids = vec![second];
        } else {
            let leaf = leaf.min(index.leaves.len() - 2);
            let [first, last] = [0, 1].map(|at| index.leaves[leaf][at].0);
            index.keys[leaf + 1] = last + u32::from(!refused);
            self.ids = vec![first];
        }
    }

    fn spoil_items(&mut self, damage: TableDamage, placed: &Placed, leaf: usize) {
        let mut record = self.bytes_of(placed.record);
        let refused = self.refused();
        match damage {
            IndexItem if refused => self.row_index = self.wrong_number(),
            IndexItem => self.row_index = self.add(record),
            IndexRoot | IndexChild => self.spoil_link(damage, placed, leaf),
            _ if !refused => {}
            IndexNoRecords | IndexPartRecord => self.spoil_records(damage, placed, leaf),
            _ => {
                match damage {
                    IndexRecordLength => {
                        let length = self.random.one_of([0, 4, 7, 9]);
                        record.resize(length, 0);
                    }
                    IndexMark => record[0] ^= 1 << self.random.below(8),
                    IndexKeySize => record[1] = self.random.one_of([0, 2, 8]),
                    // That of the other edition, or of neither.
                    IndexEntrySize => record[2] ^= self.random.one_of([4, 6, 2]),
                    _ => {}
                }
                self.set(placed.record, record);
            }
        }
    }

    fn bytes_of(&self, item: u32) -> Vec<u8> {
        self.items[(item >> 5) as usize - 1].clone()
    }

    /// The number of the root, or of a leaf: a wrong one, or that of a copy which is the last item.
    fn spoil_link(&mut self, damage: TableDamage, placed: &Placed, leaf: usize) {
        let (holder, at, named) = match placed.index {
            Some(index) if damage == IndexChild => (index, 8 * leaf + 4, placed.leaves[leaf]),
            _ => (placed.record, 4, placed.root),
        };
        let number = match self.refused() {
            false => self.add(self.bytes_of(named)),
            // A root of 0 is that of an empty index.
            true if damage == IndexRoot => self.wrong_item(),
            true => self.wrong_number(),
        };
        let mut bytes = self.bytes_of(holder);
        put(&mut bytes, at, &number.to_le_bytes());
        self.set(holder, bytes);
    }

    fn spoil_records(&mut self, damage: TableDamage, placed: &Placed, leaf: usize) {
        let item = match placed.index {
            Some(index) if self.random.one_in(2) => index,
            _ => placed.leaves[leaf],
        };
        let mut bytes = self.bytes_of(item);
        let length = match self.random.below(3) {
            _ if damage == IndexNoRecords => 0,
            0 => bytes.len() + 1,
            1 => bytes.len() - 1,
            _ => bytes.len() - 4,
        };
        bytes.resize(length, 0);
        self.set(item, bytes);
    }
}

/// Keys, each with so many bytes of a row's or an item's number behind it.
fn records(pairs: &[(u32, u32)], width: usize) -> Vec<u8> {
    let record =
        |&(key, behind): &(u32, u32)| [&key.to_le_bytes(), &behind.to_le_bytes()[..width]].concat();
    pairs.iter().flat_map(record).collect()
}
