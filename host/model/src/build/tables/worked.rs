//! The hierarchy table of 003, 3.11, byte for byte.

use super::{place_table, usual_layout, GivenCell, GivenTable, PlacedTable, RowsPlace};
use super::{ROW_ID, ROW_VERSION};
use crate::random::Random;
use crate::table::Column;

/// The columns of a hierarchy table (003, 2.4.4.4.1) but the row's id and version, in the order of their
/// bits.
pub const HIERARCHY: [u32; 11] = [
    NAME,
    0x3602_0003,
    0x3603_0003,
    SUBFOLDERS,
    0x0E30_0102,
    0x0E33_0014,
    0x0E34_0102,
    0x0E38_0003,
    0x3613_001F,
    0x6635_0003,
    0x6636_0003,
];
const NAME: u32 = 0x3001_001F;
const SUBFOLDERS: u32 = 0x360A_000B;

/// Row id, row version, name, and whether the folder has subfolders.
const ROWS: [(u32, u64, &str, u64); 3] = [
    (0x8022, 0x0E, "Top of Personal Folders", 1),
    (0x8042, 6, "Search Root", 0),
    (0x2223, 0x0B, "SPAM Search Folder 2", 0),
];

pub fn worked_example() -> PlacedTable {
    let layout = usual_layout(&HIERARCHY);
    let row = |row| layout.columns.iter().map(move |column| cell(row, *column));
    let given = GivenTable {
        rows: ROWS.iter().map(|given| row(given).collect()).collect(),
        layout,
        rows_place: RowsPlace::Item,
        left_over: Vec::new(),
        row_index: ROWS.iter().map(|row| row.0).zip(0..).collect(),
        index_levels: 0,
        tidy: true,
    };
    place_table(&mut Random::new(0), &given)
}

/// A row has its first six bits.
fn cell(&(id, version, name, subfolders): &(u32, u64, &str, u64), column: Column) -> GivenCell {
    match column.tag {
        ROW_ID => GivenCell::Number(u64::from(id)),
        ROW_VERSION => GivenCell::Number(version),
        NAME => GivenCell::Bytes(name.encode_utf16().flat_map(u16::to_le_bytes).collect()),
        SUBFOLDERS => GivenCell::Number(subfolders),
        _ if column.bit < 6 => GivenCell::Number(0),
        _ => GivenCell::Missing,
    }
}
