//! Table contexts whose heap and rows lie in one block each (02, 5/13 and 7/13; 003, 2.3.4).

mod shape;

use crate::refusal::{demand, Answer, Refusal};
use shape::Tested;

pub const TABLE: u8 = 0x7C;
pub const MOST_ROWS: usize = 8180;

/// The words of one place of the result area: those of a cell's answer.
pub const WORDS: usize = 6;

/// Where the bytes of the rows stand.
#[derive(Clone, Copy, PartialEq, Eq, Debug)]
pub enum Rows {
    None,
    Item(u32),
    Subnode(u32),
}

#[derive(Clone, Copy, PartialEq, Eq, Debug)]
pub struct Table {
    pub columns: u8,
    pub row_size: u16,
    /// Where the existence bytes begin in a row; they end with it.
    pub existence: u16,
    pub rows: Rows,
}

#[derive(Clone, Copy, PartialEq, Eq, Debug)]
pub struct Column {
    /// The property's id in the high half, its type in the low one.
    pub tag: u32,
    pub offset: u16,
    pub width: u8,
    pub bit: u8,
}

#[derive(Clone, Copy, PartialEq, Eq, Debug)]
pub enum Cell {
    Number(u64),
    Empty,
    Item(u32),
    Subnode(u32),
    /// By the row's existence bits.
    Missing,
}

pub fn table(block: &[u8]) -> Answer<Table> {
    Ok(Tested::new(block)?.table)
}

/// The columns count from 0 in stored order; None past the last.
pub fn column(block: &[u8], index: u32) -> Answer<Option<Column>> {
    Ok(Tested::new(block)?.columns().nth(index as usize))
}

/// `rows` is the block of the rows where they lie in a subnode, and not looked at otherwise.
pub fn count_rows(block: &[u8], rows: &[u8]) -> Answer<usize> {
    let table = Tested::new(block)?;
    Ok(table.rows(rows)?.len() / table.row_size())
}

/// None where the table has no such row or no such column.
pub fn cell(block: &[u8], rows: &[u8], row: u32, tag: u32) -> Answer<Option<Cell>> {
    let table = Tested::new(block)?;
    let Some(row) = table.row(rows, row)? else {
        return Ok(None);
    };
    let column = table.columns().find(|column| column.tag == tag);
    column.map(|column| table.cell(row, column)).transpose()
}

/// The number of the row that has this id, as the row index says.
pub fn find_row(block: &[u8], id: u32) -> Answer<Option<u32>> {
    Tested::new(block)?.find_row::<4>(id)
}

/// The same in a table of a 32-bit file, whose row index has numbers of two bytes.
pub fn find_row32(block: &[u8], id: u32) -> Answer<Option<u32>> {
    Tested::new(block)?.find_row::<2>(id)
}

/// Puts what `cell` answers for each column into the place of that column, and answers the number of
/// columns; None where the table has no such row. Words behind those places stay, and all words where
/// the call is refused.
pub fn read_row(block: &[u8], rows: &[u8], row: u32, places: &mut [u64]) -> Answer<Option<usize>> {
    let table = Tested::new(block)?;
    let Some(row) = table.row(rows, row)? else {
        return Ok(None);
    };
    let columns = usize::from(table.table.columns);
    if places.len() / WORDS < columns {
        return Err(Refusal::short(columns));
    }
    for (column, place) in table.columns().zip(places.chunks_exact_mut(WORDS)) {
        place.copy_from_slice(&in_words(table.cell(row, column).map(Some)));
    }
    Ok(Some(columns))
}

/// What `cell` answers, as the words of a place: refusal, place, more, found, kind, value. Those that the
/// answer does not use are 0.
pub fn in_words(answer: Answer<Option<Cell>>) -> [u64; WORDS] {
    let (kind, value) = match answer {
        Err(Refusal {
            number,
            place,
            more,
        }) => return [number, place, more, 0, 0, 0],
        Ok(None) => return [0; WORDS],
        Ok(Some(Cell::Number(number))) => (0, number),
        Ok(Some(Cell::Empty)) => (1, 0),
        Ok(Some(Cell::Item(item))) => (2, u64::from(item)),
        Ok(Some(Cell::Subnode(number))) => (3, u64::from(number)),
        Ok(Some(Cell::Missing)) => (4, 0),
    };
    [0, 0, 0, 1, kind, value]
}

/// Whether the values of a type stand outside the row, which holds the number of an item or a subnode.
pub fn is_reference(kind: u16) -> bool {
    matches!(kind, 0x1F | 0x1E | 0x102 | 0x0D | 0x48) || kind & 0x1000 != 0
}

/// 23, the shape of a table is wrong, unless the test holds.
fn shaped(holds: bool) -> Answer<()> {
    demand(holds, 23, 0)
}
