//! Property lookup on a heap (01, Heap and properties; 003, 2.3.2 and 2.3.3).

use crate::bytes::{u16_at, u32_at};
use crate::heap::Heap;
use crate::heap_tree::HeapTree;
use crate::refusal::{demand, Answer};

pub const PROPERTIES: u8 = 0xBC;
/// The types whose value stands in the record.
pub const IN_PLACE: [u16; 5] = [2, 3, 4, 0xA, 0xB];

#[derive(Clone, Copy, PartialEq, Eq, Debug)]
pub enum Value {
    Number(u32),
    Empty,
    Item(u32),
    Subnode(u32),
}

#[derive(Clone, Copy, PartialEq, Eq, Debug)]
pub struct Property {
    pub kind: u16,
    pub value: Value,
}

/// None where the property is absent.
pub fn find_property(block: &[u8], id: u16) -> Answer<Option<Property>> {
    let heap = Heap::test(block)?;
    demand(heap.client_kind() == PROPERTIES, 20, 0)?;
    let tree = HeapTree::<2, 6> {
        heap: &heap,
        fault: 20,
    };
    match tree.find(heap.user_root(), u32::from(id))? {
        Some(entry) => property(&heap, entry).map(Some),
        None => Ok(None),
    }
}

fn property(heap: &Heap, entry: &[u8]) -> Answer<Property> {
    let (kind, stored) = (u16_at(entry, 0), u32_at(entry, 2));
    let value = if IN_PLACE.contains(&kind) {
        Value::Number(stored)
    } else if stored == 0 {
        Value::Empty
    } else if stored & 31 == 0 {
        heap.item(stored)?;
        Value::Item(stored)
    } else {
        Value::Subnode(stored)
    };
    Ok(Property { kind, value })
}
