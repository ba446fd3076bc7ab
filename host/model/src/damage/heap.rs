//! Damage to a heap's block and to the property tree on it.

use crate::build::heaps::PlacedHeap;
use crate::bytes::{put, u16_at, u32_at};
use crate::random::Random;

kinds! {
    HeapDamage {
        ALL [
            AnyByte,
            Cut,
            Longer,
            Mark,
            MapOffset,
            ItemCount,
            ItemOffset,
            FirstOffset,
            LastOffset,
            ClientKind,
            UserRoot,
            TreeRecord,
            TreeRecordEnd,
            TreeRoot,
            RecordKey,
            RecordItem,
            RecordType,
            RecordValue,
        ]
    }
}

use HeapDamage::*;

/// A damaged block, with property ids whose answers the damage may change.
#[derive(Clone, Debug)]
pub struct SpoiltHeap {
    pub block: Vec<u8>,
    pub ids: Vec<u16>,
}

/// A damage that finds nothing to act on leaves the block as it is.
pub fn spoil_heap(heap: &PlacedHeap, damage: HeapDamage, random: &mut Random) -> SpoiltHeap {
    let mut spoiler = Spoiler {
        heap,
        block: heap.block.clone(),
        random,
        ids: Vec::new(),
    };
    spoiler.act(damage);
    SpoiltHeap {
        block: spoiler.block,
        ids: spoiler.ids,
    }
}

struct Spoiler<'a> {
    heap: &'a PlacedHeap,
    block: Vec<u8>,
    random: &'a mut Random,
    ids: Vec<u16>,
}

impl Spoiler<'_> {
    fn act(&mut self, damage: HeapDamage) {
        match damage {
            AnyByte => self.flip(0, self.block.len()),
            Cut => {
                let length = self.random.below(self.block.len());
                self.block.truncate(length);
            }
            Longer => {
                let about = self.random.between(8175, 8182);
                let length = self.random.one_of([about, about, 9000, 70_000]);
                self.block.resize(length, 0);
            }
            Mark => self.flip(2, 3),
            ClientKind => self.flip(3, 4),
            MapOffset | ItemCount | ItemOffset | FirstOffset | LastOffset => self.map(damage),
            UserRoot => self.item_number(4),
            TreeRecord | TreeRecordEnd | TreeRoot => self.tree_record(damage),
            _ => self.record(damage),
        }
    }

    fn flip(&mut self, start: usize, end: usize) {
        let at = self.random.between(start, end - 1);
        self.block[at] ^= 1 << self.random.below(8);
    }

    fn nudge(&mut self, at: usize) {
        let now = u16_at(&self.block, at);
        let odd = match self.random.below(5) {
            0 => now.wrapping_add(1),
            1 => now.wrapping_sub(1),
            2 => self.random.one_of([0, 11, 12, 2047, 2048, 0xFFFF]),
            3 => now
                .wrapping_add(self.random.below(32) as u16)
                .wrapping_sub(16),
            _ => self.random.number() as u16,
        };
        put(&mut self.block, at, &odd.to_le_bytes());
    }

    fn map(&mut self, damage: HeapDamage) {
        let map = usize::from(u16_at(&self.block, 0));
        let items = self.heap.items.len();
        let at = match damage {
            MapOffset => 0,
            ItemCount => map,
            FirstOffset => map + 4,
            LastOffset => map + 4 + 2 * items,
            _ => map + 4 + 2 * self.random.below(items + 1),
        };
        self.nudge(at);
    }

    fn item_number(&mut self, at: usize) {
        let items = self.heap.items.len() as u32;
        let now = u32_at(&self.block, at);
        let empty = self.heap.items.iter().position(Vec::is_empty).unwrap_or(0) as u32;
        let odd = match self.random.below(7) {
            0 => 0,
            1 => (items + 1) << 5,
            2 => now | 1 << self.random.below(5),
            3 => now | 0x1_0000 << self.random.below(16),
            4 => (1 + self.random.below(items as usize) as u32) << 5,
            5 => (1 + empty) << 5,
            _ => self.random.number() as u32,
        };
        put(&mut self.block, at, &odd.to_le_bytes());
    }

    /// Where an item of the undamaged heap starts.
    fn start(&self, item: u32) -> usize {
        let map = usize::from(u16_at(&self.heap.block, 0));
        usize::from(u16_at(
            &self.heap.block,
            map + 4 + 2 * ((item >> 5) as usize - 1),
        ))
    }

    fn tree_record(&mut self, damage: HeapDamage) {
        if self.heap.user_root == 0 {
            return;
        }
        let start = self.start(self.heap.user_root);
        if damage == TreeRoot {
            self.item_number(start + 4);
        } else if damage == TreeRecordEnd {
            let map = usize::from(u16_at(&self.block, 0));
            self.nudge(map + 4 + 2 * (self.heap.user_root >> 5) as usize);
        } else if self.random.one_in(2) {
            self.block[start + 3] = self.random.below(6) as u8;
        } else {
            self.flip(start, start + 3);
        }
    }

    fn record(&mut self, damage: HeapDamage) {
        let indexes = damage == RecordItem;
        let leaves = matches!(damage, RecordType | RecordValue);
        let tree = self.heap.tree.iter();
        let fitting: Vec<_> = tree
            .filter(|item| (!indexes || item.level > 0) && (!leaves || item.level == 0))
            .collect();
        let Some(item) = self.random.pick(&fitting) else {
            return;
        };
        let size = if item.level == 0 { 8 } else { 6 };
        let start = self.start(item.item);
        let keys = (0..item.records).map(|at| u16_at(&self.heap.block, start + size * at));
        let keys: Vec<_> = keys.collect();
        let at = self.random.below(item.records);
        let record = start + size * at;
        match damage {
            RecordKey => self.key(record, at, &keys),
            RecordItem => self.item_number(record + 2),
            RecordType => {
                let kind = self.random.one_of([2_u16, 3, 4, 0xA, 0xB, 0x1F, 0x102, 0]);
                put(&mut self.block, record + 2, &kind.to_le_bytes());
            }
            _ => self.item_number(record + 4),
        }
        let near = if damage == RecordKey {
            &keys[..]
        } else {
            &keys[at..=at]
        };
        self.ids.extend_from_slice(near);
        self.ids.push(u16_at(&self.block, record));
    }

    fn key(&mut self, record: usize, at: usize, keys: &[u16]) {
        let last = at + 1 == keys.len();
        match self.random.below(4) {
            0 if at > 0 => put(&mut self.block, record, &keys[at - 1].to_le_bytes()),
            0 | 1 if at == 0 => put(&mut self.block, record, &[0, 0]),
            1 | 2 if last => put(&mut self.block, record, &[0xFF, 0xFF]),
            _ => self.nudge(record),
        }
    }
}
