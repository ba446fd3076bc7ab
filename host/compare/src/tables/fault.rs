//! What refused a call on a table: several faults have one number.

use crate::ask::{Call, Lent};
use std::fmt;

#[derive(Clone, Copy, PartialEq, Eq, PartialOrd, Ord, Debug)]
pub enum Fault {
    /// The area has fewer places than the table has columns.
    Area,
    Heap,
    UserRoot,
    RowsItem,
    /// The item that a cell names.
    Value,
    /// The item of the row index's own record.
    IndexItem,
    IndexRoot,
    IndexChild,
    ClientKind,
    /// The record before its columns, or its length.
    Record,
    Columns,
    /// A subnode's rows over 8,180 bytes.
    RowsLength,
    /// The row index is one of the other edition, by the size of its row numbers.
    OtherIndex,
    IndexRecord,
    /// The records of an item of the row index.
    IndexRecords,
}

use Fault::*;

impl Fault {
    pub fn number(self) -> u64 {
        match self {
            Area => 17,
            Heap => 18,
            UserRoot | RowsItem | Value | IndexItem | IndexRoot | IndexChild => 19,
            _ => 23,
        }
    }

    /// Those that the call can meet, in its places too.
    pub fn all_of(call: Call) -> Vec<Fault> {
        let own: &[Fault] = match call {
            Call::CountRows => &[RowsItem, RowsLength],
            Call::Cell => &[RowsItem, RowsLength, Value],
            Call::ReadRow => &[RowsItem, RowsLength, Value, Area],
            _ if call.seeks_row() => &[
                IndexItem,
                IndexRoot,
                IndexChild,
                OtherIndex,
                IndexRecord,
                IndexRecords,
            ],
            _ => &[],
        };
        let common = [Heap, ClientKind, UserRoot, Record, Columns];
        common.iter().chain(own).copied().collect()
    }

    /// What refused the call with that number; None where no fault of that number is there.
    pub fn of(call: Call, lent: Lent, number: u64) -> Option<Fault> {
        let fault = shape(lent.bytes).or_else(|| behind_shape(call, lent, number));
        fault.filter(|fault| fault.number() == number)
    }
}

fn shape(block: &[u8]) -> Option<Fault> {
    if model::test_heap(block).is_err() {
        return Some(Heap);
    }
    if block[3] != 0x7C {
        return Some(ClientKind);
    }
    let Some(record) = record(block) else {
        return Some(UserRoot);
    };
    if !head_fits(record) {
        return Some(Record);
    }
    model::table(block).is_err().then_some(Columns)
}

fn behind_shape(call: Call, lent: Lent, number: u64) -> Option<Fault> {
    match call {
        Call::FindRow => return in_index(lent.bytes, [4, 2], number),
        Call::FindRow32 => return in_index(lent.bytes, [2, 4], number),
        _ => {}
    }
    match model::count_rows(lent.bytes, lent.rows) {
        Err(refusal) if refusal.number == 19 => Some(RowsItem),
        Err(_) => Some(RowsLength),
        Ok(_) if number == 17 => Some(Area),
        Ok(_) => Some(Value),
    }
}

/// The bytes of a row's number are those of the call's edition, and of the other.
fn in_index(block: &[u8], [own, other]: [u8; 2], number: u64) -> Option<Fault> {
    let Some(index) = item(block, four(record(block)?, 10)) else {
        return Some(IndexItem);
    };
    let fits = |size| index.len() == 8 && index[..3] == [0xB5, 4, size] && index[3] <= 3;
    if fits(other) {
        return Some(OtherIndex);
    }
    if !fits(own) {
        return Some(IndexRecord);
    }
    if item(block, four(index, 4)).is_none() {
        return Some(IndexRoot);
    }
    match number {
        19 => Some(IndexChild),
        _ => Some(IndexRecords),
    }
}

fn head_fits(record: &[u8]) -> bool {
    let whole = record.len() >= 22 && record.len() == 22 + 8 * usize::from(record[1]);
    let two = |at: usize| u16::from_le_bytes([record[at], record[at + 1]]);
    whole && record[0] == 0x7C && two(8) > 0 && two(6) <= two(8)
}

/// The record of a table on a heap.
pub fn record(block: &[u8]) -> Option<&[u8]> {
    item(block, four(block, 4))
}

pub fn item(block: &[u8], number: u32) -> Option<&[u8]> {
    let item = model::item(block, number).ok()?;
    block.get(item.start..item.start + item.length)
}

pub fn four(bytes: &[u8], at: usize) -> u32 {
    u32::from_le_bytes([bytes[at], bytes[at + 1], bytes[at + 2], bytes[at + 3]])
}

impl fmt::Display for Fault {
    fn fmt(&self, f: &mut fmt::Formatter) -> fmt::Result {
        f.write_str(match self {
            Area => "short area",
            Heap => "heap",
            UserRoot => "user root",
            RowsItem => "rows' item",
            Value => "a cell's item",
            IndexItem => "row index's item",
            IndexRoot => "row index's root",
            IndexChild => "row index's child",
            ClientKind => "client kind",
            Record => "record",
            Columns => "columns",
            RowsLength => "rows too long",
            OtherIndex => "row index of the other",
            IndexRecord => "row index's record",
            IndexRecords => "records of the row index",
        })
    }
}
