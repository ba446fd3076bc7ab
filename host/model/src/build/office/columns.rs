//! The columns that tables have by 003, 2.4.4 to 2.4.6 and 2.4.8, but the row's id and version, which all
//! have; and a row of them.

use super::super::heaps::Given;
use super::super::tables::{GivenCell, ROW_ID, ROW_VERSION};
use super::Properties;
use crate::table::Column;

pub const CONTENTS: [u32; 25] = [
    0x0017_0003,
    0x001A_001F,
    0x0036_0003,
    0x0037_001F,
    0x0039_0040,
    0x0042_001F,
    0x0057_000B,
    0x0058_000B,
    0x0070_001F,
    0x0071_0102,
    0x0E03_001F,
    0x0E04_001F,
    0x0E06_0040,
    0x0E07_0003,
    0x0E08_0003,
    0x0E17_0003,
    0x0E30_0102,
    0x0E33_0014,
    0x0E34_0102,
    0x0E38_0003,
    0x0E3C_0102,
    0x0E3D_0102,
    0x1097_0003,
    0x3008_0040,
    0x65C6_0003,
];

/// A column that the contents tables of the sample have beside those of the template.
pub const SENDER: u32 = 0x0C1A_001F;

pub const ASSOCIATED: [u32; 13] = [
    0x001A_001F,
    0x0E07_0003,
    0x0E17_0003,
    0x3001_001F,
    0x6800_001F,
    0x6803_000B,
    0x6805_1003,
    0x682F_001F,
    0x7003_0003,
    0x7004_0102,
    0x7005_0102,
    0x7006_001F,
    0x7007_0003,
];

pub const SEARCH: [u32; 16] = [
    0x0017_0003,
    0x001A_001F,
    0x0036_0003,
    0x0037_001F,
    0x0042_001F,
    0x0057_000B,
    0x0E03_001F,
    0x0E04_001F,
    0x0E05_001F,
    0x0E06_0040,
    0x0E07_0003,
    0x0E08_0003,
    0x0E17_0003,
    0x0E2A_000B,
    0x3008_0040,
    0x67F1_0003,
];

pub const ATTACHMENTS: [u32; 4] = [0x0E20_0003, 0x3704_001F, 0x3705_0003, 0x370B_0003];

pub const RECIPIENTS: [u32; 12] = [
    0x0C15_0003,
    0x0E0F_000B,
    0x0FF9_0102,
    0x0FFE_0003,
    0x0FFF_0102,
    0x3001_001F,
    0x3002_001F,
    0x3003_001F,
    0x300B_0102,
    0x3900_0003,
    0x39FF_001F,
    0x3A40_000B,
];

/// Those of the properties that the table has columns for; the other cells are missing.
pub fn row(columns: &[Column], id: u32, version: u32, properties: &Properties) -> Vec<GivenCell> {
    let cell = |column: &Column| match column.tag {
        ROW_ID => GivenCell::Number(u64::from(id)),
        ROW_VERSION => GivenCell::Number(u64::from(version)),
        tag => {
            let is_it =
                |&&(id, kind, _): &&(u16, u16, Given)| u32::from(id) << 16 | u32::from(kind) == tag;
            let property = properties.iter().find(is_it);
            property.map_or(GivenCell::Missing, |(_, _, given)| copied(*column, given))
        }
    };
    columns.iter().map(cell).collect()
}

/// A time stands in the row itself, but in an item of a property context.
fn copied(column: Column, given: &Given) -> GivenCell {
    match given {
        Given::Number(number) => GivenCell::Number(u64::from(*number)),
        Given::Empty => GivenCell::Empty,
        Given::Subnode(number) => GivenCell::Subnode(*number),
        Given::Bytes(bytes) if column.width == 8 => {
            let mut number = [0; 8];
            number.copy_from_slice(bytes);
            GivenCell::Number(u64::from_le_bytes(number))
        }
        Given::Bytes(bytes) => GivenCell::Bytes(bytes.clone()),
    }
}
