//! Table contexts on heaps, from a description or at random.

mod any;
mod layout;
mod worked;

use super::items::{GivenTree, Items, TreeItem};
use crate::edition::Edition;
use crate::random::Random;
use crate::table::{Cell, Column, Rows, Table, TABLE};
use std::collections::BTreeMap;

pub use any::{any_table, any_table_of, real_size, real_size_of, table_context, TablePlan};
pub use layout::{odd_layout, usual_layout, usual_width, Layout, ROW_ID, ROW_VERSION};
pub use worked::{worked_example, HIERARCHY};

/// A cell to be placed.
#[derive(Clone, Debug)]
pub enum GivenCell {
    Number(u64),
    Empty,
    /// What the item is to hold.
    Bytes(Vec<u8>),
    Subnode(u32),
    Missing,
}

/// Where the rows are to stand.
#[derive(Clone, Copy, PartialEq, Eq, Debug)]
pub enum RowsPlace {
    /// Nowhere, for a table without rows.
    None,
    Item,
    /// In a block of their own, under that number of a subnode.
    Subnode(u32),
}

#[derive(Clone, Debug)]
pub struct GivenTable {
    pub layout: Layout,
    /// A cell for each column, in stored order.
    pub rows: Vec<Vec<GivenCell>>,
    pub rows_place: RowsPlace,
    /// Behind the last whole row.
    pub left_over: Vec<u8>,
    /// Row numbers by row id.
    pub row_index: BTreeMap<u32, u32>,
    pub index_levels: u8,
    /// No gaps, no items that nothing names, zeros where nothing is read.
    pub tidy: bool,
}

/// A table's block, the block of its rows, and what stands in them.
#[derive(Clone, Debug)]
pub struct PlacedTable {
    /// Of the row index; all else is alike in both.
    pub edition: Edition,
    pub block: Vec<u8>,
    /// Empty unless the rows lie in a subnode.
    pub rows: Vec<u8>,
    /// Item i, which has the number i times 32, at place i - 1.
    pub items: Vec<Vec<u8>>,
    /// The item of the table's record.
    pub user_root: u32,
    /// The item of the row index's own record.
    pub row_index_item: u32,
    /// The items of the row index.
    pub tree: Vec<TreeItem>,
    pub table: Table,
    pub columns: Vec<Column>,
    /// By row, then by column in stored order.
    pub cells: Vec<Vec<Cell>>,
    pub row_index: BTreeMap<u32, u32>,
}

/// A table of a 64-bit file.
pub fn place_table(random: &mut Random, given: &GivenTable) -> PlacedTable {
    place_table_of(Edition::Bits64, random, given)
}

/// The caller keeps the block and the rows' block within the bytes that a block can have.
pub fn place_table_of(edition: Edition, random: &mut Random, given: &GivenTable) -> PlacedTable {
    let mut items = Items::new(random, given.tidy);
    let row_index_item = items.add(Vec::new());
    let user_root = items.add(Vec::new());
    let row_index = items.add_tree(&row_tree(edition, given));
    items.set(row_index_item, row_index);
    let (cells, rows, rows_block) = place_rows(&mut items, given);
    let record = record(&given.layout, row_index_item, rows);
    items.set(user_root, record);
    let Layout { columns, ends } = given.layout.clone();
    PlacedTable {
        edition,
        block: items.lay_out(TABLE, user_root),
        rows: rows_block,
        items: items.list,
        user_root,
        row_index_item,
        tree: items.tree,
        table: Table {
            columns: columns.len() as u8,
            row_size: ends[3],
            existence: ends[2],
            rows,
        },
        columns,
        cells,
        row_index: given.row_index.clone(),
    }
}

fn row_tree(edition: Edition, given: &GivenTable) -> GivenTree {
    let width = edition.layout().row_number;
    let records = given.row_index.iter().map(|(&id, row)| {
        let mut record = id.to_le_bytes().to_vec();
        record.extend_from_slice(&row.to_le_bytes()[..width]);
        (id, record)
    });
    GivenTree {
        key: 4,
        entry: width as u8,
        levels: given.index_levels,
        records: records.collect(),
    }
}

pub(crate) fn record(layout: &Layout, row_index: u32, rows: Rows) -> Vec<u8> {
    let rows = match rows {
        Rows::None => 0,
        Rows::Item(number) | Rows::Subnode(number) => number,
    };
    let mut record = vec![TABLE, layout.columns.len() as u8];
    record.extend(layout.ends.iter().flat_map(|end| end.to_le_bytes()));
    // Behind the rows stands a number that nothing looks at.
    for field in [row_index, rows, 0] {
        record.extend_from_slice(&field.to_le_bytes());
    }
    for column in &layout.columns {
        record.extend_from_slice(&column.tag.to_le_bytes());
        record.extend_from_slice(&column.offset.to_le_bytes());
        record.extend_from_slice(&[column.width, column.bit]);
    }
    record
}

/// The cells as a reader sees them, where the rows stand, and the bytes of their own block.
fn place_rows(items: &mut Items, given: &GivenTable) -> (Vec<Vec<Cell>>, Rows, Vec<u8>) {
    let rows = match given.rows_place {
        RowsPlace::None => Rows::None,
        RowsPlace::Item => Rows::Item(items.add(Vec::new())),
        RowsPlace::Subnode(number) => Rows::Subnode(number),
    };
    let mut bytes = Vec::new();
    let mut cells = Vec::new();
    for row in &given.rows {
        let mut own = fresh_row(items, &given.layout);
        let placed: Vec<_> = row.iter().map(|cell| place_cell(items, cell)).collect();
        cells.push(put_row(&given.layout, &mut own, &placed));
        bytes.extend_from_slice(&own);
    }
    bytes.extend_from_slice(&given.left_over);
    if let Rows::Item(item) = rows {
        items.set(item, std::mem::take(&mut bytes));
    }
    (cells, rows, bytes)
}

/// A row whose columns are all missing; what nothing reads is zero, or anything in an untidy table.
fn fresh_row(items: &mut Items, layout: &Layout) -> Vec<u8> {
    let size = usize::from(layout.ends[3]);
    let mut row = if items.tidy {
        vec![0; size]
    } else {
        items.random.bytes(size)
    };
    for column in &layout.columns {
        let (at, mask) = layout.existence_bit(*column);
        row[at] &= !mask;
    }
    row
}

fn place_cell(items: &mut Items, cell: &GivenCell) -> Cell {
    match *cell {
        GivenCell::Number(number) => Cell::Number(number),
        GivenCell::Empty => Cell::Empty,
        GivenCell::Bytes(ref bytes) => Cell::Item(items.add(bytes.clone())),
        GivenCell::Subnode(number) => Cell::Subnode(number),
        GivenCell::Missing => Cell::Missing,
    }
}

/// Puts the cells into a row whose existence bits are clear, and answers them as a reader sees them: of a
/// number only the bytes that its column has room for. What lies outside the row is left out.
pub(crate) fn put_row(layout: &Layout, row: &mut [u8], cells: &[Cell]) -> Vec<Cell> {
    let placed = layout.columns.iter().zip(cells);
    let placed = placed.map(|(column, &cell)| put_cell(layout, row, *column, cell));
    placed.collect()
}

fn put_cell(layout: &Layout, row: &mut [u8], column: Column, cell: Cell) -> Cell {
    let stored = match cell {
        Cell::Missing => return cell,
        Cell::Empty => 0,
        Cell::Item(number) | Cell::Subnode(number) => u64::from(number),
        Cell::Number(number) => number,
    };
    let mut bytes = stored.to_le_bytes();
    let width = usize::from(column.width).min(bytes.len());
    bytes[width..].fill(0);
    let start = usize::from(column.offset);
    if let Some(place) = row.get_mut(start..start + width) {
        place.copy_from_slice(&bytes[..width]);
    }
    let (at, mask) = layout.existence_bit(column);
    if let Some(existence) = row.get_mut(at) {
        *existence |= mask;
    }
    match cell {
        Cell::Number(_) => Cell::Number(u64::from_le_bytes(bytes)),
        other => other,
    }
}
