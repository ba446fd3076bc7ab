//! Heaps, and property contexts on them.

use super::items::{lay_out, small_item, GivenTree, Items};
use crate::property::{Property, Value, PROPERTIES};
use crate::random::Random;
use std::collections::BTreeMap;

pub use super::items::TreeItem;

#[derive(Clone, Copy, Debug)]
pub struct HeapPlan {
    pub index_levels: u8,
    pub properties: usize,
    pub most_value: usize,
    pub tidy: bool,
}

/// A heap's block and what stands on it.
#[derive(Clone, Debug)]
pub struct PlacedHeap {
    pub block: Vec<u8>,
    /// Item i, which has the number i times 32, at place i - 1.
    pub items: Vec<Vec<u8>>,
    /// The heap item of the tree's own record; 0 where the heap holds no properties.
    pub user_root: u32,
    pub tree: Vec<TreeItem>,
    pub properties: BTreeMap<u16, Property>,
}

/// A property to be placed.
#[derive(Clone, Debug)]
pub enum Given {
    Number(u32),
    Empty,
    Bytes(Vec<u8>),
    Subnode(u32),
}

/// A property context of at most 8,176 bytes, which a block of either edition can have; too large a plan
/// is cut down.
pub fn property_context(random: &mut Random, mut plan: HeapPlan) -> PlacedHeap {
    loop {
        let mut filler = Filler::new(random, plan);
        let properties = filler.any_properties();
        let heap = filler.finish(properties);
        if heap.block.len() <= 8176 {
            return heap;
        }
        plan.properties = plan.properties * 3 / 4;
        plan.most_value = plan.most_value * 3 / 4;
    }
}

/// A tidy context of those properties: id, type and value.
pub fn given_properties(random: &mut Random, given: Vec<(u16, u16, Given)>) -> PlacedHeap {
    let plan = HeapPlan {
        index_levels: 0,
        properties: given.len(),
        most_value: 0,
        tidy: true,
    };
    let mut filler = Filler::new(random, plan);
    let place = |(id, kind, given)| {
        let value = filler.value(given);
        (id, Property { kind, value })
    };
    let properties = given.into_iter().map(place).collect();
    filler.finish(properties)
}

/// A context of a few properties in a block of just so many bytes, 200 at least: one item is as long as it
/// takes. Where the length is odd, a byte that nothing reads stands behind the map.
pub fn context_of_length(random: &mut Random, length: usize) -> PlacedHeap {
    let mut context = |filler: usize| {
        let filler = random.bytes(filler);
        let given = vec![
            (0x3001, 0x1F, Given::Bytes(vec![0x41, 0])),
            (0x3602, 3, Given::Number(7)),
            (0x3613, 0x102, Given::Bytes(filler)),
            (0x67FF, 0x102, Given::Empty),
        ];
        given_properties(&mut Random::new(0), given)
    };
    let without = context(0).block.len();
    let mut heap = context((length - without) & !1);
    heap.block.resize(length, 0xA5);
    heap
}

/// A heap of a few items and any client kind but that of properties.
pub fn bare_heap(random: &mut Random, items: usize) -> PlacedHeap {
    let items: Vec<_> = (0..items).map(|_| small_item(random)).collect();
    let kind = random.byte() & 0x7F;
    let user_root = random.number() as u32;
    let block = lay_out(random, &items, kind, user_root, false);
    without_tree(block, items)
}

/// A heap of nothing but empty items.
pub fn empty_items(random: &mut Random, items: usize) -> PlacedHeap {
    let items = vec![Vec::new(); items];
    let block = lay_out(random, &items, PROPERTIES, 32, true);
    without_tree(block, items)
}

fn without_tree(block: Vec<u8>, items: Vec<Vec<u8>>) -> PlacedHeap {
    PlacedHeap {
        block,
        items,
        user_root: 0,
        tree: Vec::new(),
        properties: BTreeMap::new(),
    }
}

struct Filler<'a> {
    plan: HeapPlan,
    items: Items<'a>,
    user_root: u32,
}

impl<'a> Filler<'a> {
    fn new(random: &'a mut Random, plan: HeapPlan) -> Self {
        let mut items = Items::new(random, plan.tidy);
        let user_root = items.add(Vec::new());
        Self {
            plan,
            items,
            user_root,
        }
    }

    fn finish(mut self, properties: BTreeMap<u16, Property>) -> PlacedHeap {
        let records = properties.iter().map(|(&id, property)| {
            let record = leaf_record(id, *property);
            (u32::from(id), record)
        });
        let record = self.items.add_tree(&GivenTree {
            key: 2,
            entry: 6,
            levels: self.plan.index_levels,
            records: records.collect(),
        });
        self.items.set(self.user_root, record);
        PlacedHeap {
            block: self.items.lay_out(PROPERTIES, self.user_root),
            items: self.items.list,
            user_root: self.user_root,
            tree: self.items.tree,
            properties,
        }
    }

    fn any_properties(&mut self) -> BTreeMap<u16, Property> {
        let mut properties = BTreeMap::new();
        while properties.len() < self.plan.properties {
            let random = &mut *self.items.random;
            let id = match random.below(4) {
                0 if !self.plan.tidy => random.number() as u16,
                1 => 0x3000 + random.below(64) as u16,
                2 => 0x0E00 + random.below(256) as u16,
                _ => 0x6600 + random.below(512) as u16,
            };
            let property = self.property();
            properties.entry(id).or_insert(property);
        }
        properties
    }

    fn property(&mut self) -> Property {
        let random = &mut *self.items.random;
        let in_place = random.one_of([2, 3, 4, 0xA, 0xB]);
        let other = random.one_of([0x1F, 0x102, 0x14, 0x40, 5, 0x48, 0x101F]);
        let number = random.number() as u32;
        let (kind, given) = match random.below(6) {
            0 | 1 => (in_place, Given::Number(number)),
            2 => (in_place, Given::Number(number & 0xFF)),
            3 => (other, Given::Empty),
            4 => (other, Given::Subnode(number | 1)),
            _ => {
                let length = random.below(self.plan.most_value + 1);
                (other, Given::Bytes(random.bytes(length)))
            }
        };
        let value = self.value(given);
        Property { kind, value }
    }

    fn value(&mut self, given: Given) -> Value {
        match given {
            Given::Number(number) => Value::Number(number),
            Given::Empty => Value::Empty,
            Given::Bytes(bytes) => Value::Item(self.items.add(bytes)),
            Given::Subnode(number) => Value::Subnode(number),
        }
    }
}

fn leaf_record(id: u16, property: Property) -> Vec<u8> {
    let value = match property.value {
        Value::Number(stored) | Value::Item(stored) | Value::Subnode(stored) => stored,
        Value::Empty => 0,
    };
    let mut record = id.to_le_bytes().to_vec();
    record.extend_from_slice(&property.kind.to_le_bytes());
    record.extend_from_slice(&value.to_le_bytes());
    record
}
