//! A tree on a heap: of properties, or of a table's rows (01, Heap and properties; 02, 5/13; 003, 2.3.2).

use crate::bytes::u32_at;
use crate::heap::Heap;
use crate::page::Range;
use crate::refusal::{demand, Answer, Refusal};

pub const TREE_MARK: u8 = 0xB5;
pub const MOST_INDEX_LEVELS: u8 = 3;

/// A tree whose keys have so many bytes, and whose leaf records so many behind the key.
pub(crate) struct HeapTree<'a, const KEY: usize, const ENTRY: usize> {
    pub heap: &'a Heap<'a>,
    /// The refusal of a wrong shape.
    pub fault: u64,
}

impl<'a, const KEY: usize, const ENTRY: usize> HeapTree<'a, KEY, ENTRY> {
    /// What stands behind the key sought in its leaf record; None where it is absent. The item is that of
    /// the tree's own record.
    pub fn find(&self, item: u32, sought: u32) -> Answer<Option<&'a [u8]>> {
        let record = self.heap.bytes(item)?;
        let marked = [TREE_MARK, KEY as u8, ENTRY as u8];
        demand(record.len() == 8 && record[..3] == marked, self.fault, 0)?;
        let levels = record[3];
        demand(levels <= MOST_INDEX_LEVELS, self.fault, 0)?;
        match u32_at(record, 4) {
            0 => Ok(None),
            root => self.find_under(root, levels, Range::ALL, sought),
        }
    }

    fn find_under(
        &self,
        item: u32,
        levels: u8,
        range: Range,
        sought: u32,
    ) -> Answer<Option<&'a [u8]>> {
        let size = KEY + if levels == 0 { ENTRY } else { 4 };
        let bytes = self.heap.bytes(item)?;
        let records =
            Records::<KEY>::test(bytes, size, range).ok_or(Refusal::new(self.fault, 0))?;
        let Some(at) = records.last_at_most(sought) else {
            return Ok(None);
        };
        let entry = records.entry(at);
        if levels == 0 {
            return Ok((records.key(at) == sought).then_some(entry));
        }
        let end = if at + 1 < records.count {
            Some(u64::from(records.key(at + 1)))
        } else {
            range.end
        };
        let low = u64::from(records.key(at));
        self.find_under(u32_at(entry, 0), levels - 1, Range { low, end }, sought)
    }
}

/// The records of one item, whose shape has been tested.
struct Records<'a, const KEY: usize> {
    bytes: &'a [u8],
    size: usize,
    count: usize,
}

impl<'a, const KEY: usize> Records<'a, KEY> {
    fn test(bytes: &'a [u8], size: usize, range: Range) -> Option<Self> {
        let count = bytes.len() / size;
        if count == 0 || !bytes.len().is_multiple_of(size) {
            return None;
        }
        let records = Self { bytes, size, count };
        let ascending = (1..count).all(|at| records.key(at - 1) < records.key(at));
        let in_range = |at| range.holds(u64::from(records.key(at)));
        (ascending && (0..count).all(in_range)).then_some(records)
    }

    fn record(&self, at: usize) -> &'a [u8] {
        &self.bytes[at * self.size..(at + 1) * self.size]
    }

    fn key(&self, at: usize) -> u32 {
        let mut key = [0; 4];
        key[..KEY].copy_from_slice(&self.record(at)[..KEY]);
        u32::from_le_bytes(key)
    }

    fn entry(&self, at: usize) -> &'a [u8] {
        &self.record(at)[KEY..]
    }

    /// The last record whose key is at most the key sought.
    fn last_at_most(&self, sought: u32) -> Option<usize> {
        let at_most = (0..self.count).take_while(|&at| self.key(at) <= sought);
        at_most.last()
    }
}
