//! A table's record and columns, and the bytes of its rows.

use super::{is_reference, shaped, Cell, Column, Rows, Table, MOST_ROWS, TABLE};
use crate::bytes::{u16_at, u32_at, u64_at};
use crate::heap::Heap;
use crate::heap_tree::HeapTree;
use crate::refusal::Answer;

/// The bytes of a table's record before its columns, and of one column.
const HEAD: usize = 22;
const COLUMN: usize = 8;
const MOST_COLUMNS: usize = 255;

/// Rows within so many bytes take a small map; 255 columns side by side do.
const USUAL_ROW: u16 = 2048;

/// A block whose shape as a table has been tested, its rows and row index excepted.
pub struct Tested<'a> {
    heap: Heap<'a>,
    /// The record's bytes behind its head.
    columns: &'a [u8],
    row_index: u32,
    pub table: Table,
}

impl<'a> Tested<'a> {
    pub fn new(block: &'a [u8]) -> Answer<Self> {
        let heap = Heap::test(block)?;
        shaped(heap.client_kind() == TABLE)?;
        let record = heap.bytes(heap.user_root())?;
        shaped(record_right(record))?;
        let tested = Self {
            heap,
            columns: &record[HEAD..],
            row_index: u32_at(record, 10),
            table: Table {
                columns: record[1],
                row_size: u16_at(record, 8),
                existence: u16_at(record, 6),
                rows: rows_place(u32_at(record, 14)),
            },
        };
        shaped(tested.columns_right())?;
        Ok(tested)
    }

    pub fn row_size(&self) -> usize {
        usize::from(self.table.row_size)
    }

    pub fn columns(&self) -> impl Iterator<Item = Column> + 'a {
        self.columns.chunks_exact(COLUMN).map(column_of)
    }

    fn columns_right(&self) -> bool {
        let apart = if self.table.existence <= USUAL_ROW {
            self.columns_apart::<{ USUAL_ROW as usize / 64 }>()
        } else {
            self.columns_apart::<1024>()
        };
        apart && self.tags_apart()
    }

    /// Each column fits, and no two share a bit or a byte. `WORDS` words of 64 bits must do for the bytes
    /// of a row before its existence bytes.
    fn columns_apart<const WORDS: usize>(&self) -> bool {
        let existence = u32::from(self.table.existence);
        let bit_count = 8 * (u32::from(self.table.row_size) - existence);
        let (mut bits, mut bytes) = ([0; 4], [0; WORDS]);
        self.columns().all(|column| {
            fits(column, existence, bit_count)
                && take(&mut bits, usize::from(column.bit), 1)
                && take_bytes(&mut bytes, column)
        })
    }

    /// Tags that ascend, as 003 wants them, need no sorting.
    fn tags_apart(&self) -> bool {
        let mut pairs = self.columns().zip(self.columns().skip(1));
        if pairs.all(|(before, column)| before.tag < column.tag) {
            return true;
        }
        let mut tags = [0; MOST_COLUMNS];
        for (tag, column) in tags.iter_mut().zip(self.columns()) {
            *tag = column.tag;
        }
        let tags = &mut tags[..usize::from(self.table.columns)];
        tags.sort_unstable();
        tags.windows(2).all(|pair| pair[0] < pair[1])
    }

    pub fn rows<'b>(&self, given: &'b [u8]) -> Answer<&'b [u8]>
    where
        'a: 'b,
    {
        match self.table.rows {
            Rows::None => Ok(&[]),
            Rows::Item(item) => self.heap.bytes(item),
            Rows::Subnode(_) => {
                shaped(given.len() <= MOST_ROWS)?;
                Ok(given)
            }
        }
    }

    /// The bytes of one row; None past the last.
    pub fn row<'b>(&self, given: &'b [u8], row: u32) -> Answer<Option<&'b [u8]>>
    where
        'a: 'b,
    {
        let mut rows = self.rows(given)?.chunks_exact(self.row_size());
        Ok(rows.nth(row as usize))
    }

    pub fn cell(&self, row: &[u8], column: Column) -> Answer<Cell> {
        let at = usize::from(column.offset);
        let existence = row[usize::from(self.table.existence) + usize::from(column.bit / 8)];
        if existence & 0x80 >> (column.bit % 8) == 0 {
            return Ok(Cell::Missing);
        }
        if !is_reference(column.tag as u16) {
            return Ok(Cell::Number(number_at(row, at, column.width)));
        }
        match u32_at(row, at) {
            0 => Ok(Cell::Empty),
            item if item & 31 == 0 => self.heap.item(item).map(|_| Cell::Item(item)),
            subnode => Ok(Cell::Subnode(subnode)),
        }
    }

    /// In a row index whose row numbers have so many bytes.
    pub fn find_row<const ENTRY: usize>(&self, id: u32) -> Answer<Option<u32>> {
        let tree = HeapTree::<4, ENTRY> {
            heap: &self.heap,
            fault: 23,
        };
        let entry = tree.find(self.row_index, id)?;
        Ok(entry.map(|entry| {
            let mut row = [0; 4];
            row[..ENTRY].copy_from_slice(entry);
            u32::from_le_bytes(row)
        }))
    }
}

fn record_right(record: &[u8]) -> bool {
    record.len() >= HEAD
        && record[0] == TABLE
        && record.len() == HEAD + COLUMN * usize::from(record[1])
        && u16_at(record, 8) >= 1
        && u16_at(record, 6) <= u16_at(record, 8)
}

fn rows_place(stored: u32) -> Rows {
    match stored {
        0 => Rows::None,
        item if item & 31 == 0 => Rows::Item(item),
        subnode => Rows::Subnode(subnode),
    }
}

/// Its eight bytes are read as one number.
fn column_of(stored: &[u8]) -> Column {
    let fields = u64_at(stored, 0);
    Column {
        tag: fields as u32,
        offset: (fields >> 32) as u16,
        width: (fields >> 48) as u8,
        bit: (fields >> 56) as u8,
    }
}

/// The column on its own: in the row, its bit among the existence bits, its width one of its type.
fn fits(column: Column, existence: u32, bits: u32) -> bool {
    let width = if is_reference(column.tag as u16) {
        column.width == 4
    } else {
        matches!(column.width, 1 | 2 | 4 | 8)
    };
    width
        && u32::from(column.offset) + u32::from(column.width) <= existence
        && u32::from(column.bit) < bits
}

/// Marks the bytes of a column, which may begin in one word and end in the next; whether none of them was
/// marked.
fn take_bytes(taken: &mut [u64], column: Column) -> bool {
    let (at, width) = (usize::from(column.offset), u32::from(column.width));
    let first = width.min(64 - u32::from(column.offset) % 64);
    take(taken, at, first) && (first == width || take(taken, at + first as usize, width - first))
}

/// Marks so many bits of one word; whether none of them was marked.
fn take(taken: &mut [u64], at: usize, count: u32) -> bool {
    let mask = ((1 << count) - 1) << (at % 64);
    let word = &mut taken[at / 64];
    let free = *word & mask == 0;
    *word |= mask;
    free
}

fn number_at(row: &[u8], at: usize, width: u8) -> u64 {
    match width {
        1 => u64::from(row[at]),
        2 => u64::from(u16_at(row, at)),
        4 => u64::from(u32_at(row, at)),
        _ => u64_at(row, at),
    }
}
