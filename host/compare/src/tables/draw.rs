//! What is asked of a table.

use super::{CELL_WORDS, LENGTHS, MOST_ROWS};
use crate::ask::{Ask, Call};
use crate::lists;
use model::random::Random;

/// What is known of a table, or of bytes that may be one.
#[derive(Clone, Default)]
pub struct Known {
    /// The block of its rows.
    pub rows: Vec<u8>,
    pub tags: Vec<u32>,
    /// Those of the row index.
    pub ids: Vec<u32>,
}

/// A call on the table in that block, and the block of the rows that goes with it.
pub fn draw(call: Call, block: &[u8], known: &Known, random: &mut Random) -> (Ask, Vec<u8>) {
    let (columns, row_size) = match model::table(block) {
        Ok(table) => (table.columns.into(), table.row_size.into()),
        Err(_) => (known.tags.len(), random.between(1, 90)),
    };
    let rows = rows(known, row_size, random);
    let number = match call {
        Call::Column => index(columns, random),
        _ if call.seeks_row() => id(&known.ids, random),
        _ => {
            let count = model::count_rows(block, &rows).unwrap_or(3);
            row(count, row_size, random)
        }
    };
    let ask = Ask {
        tag: tag(&known.tags, random),
        words: match call {
            Call::ReadRow => lists::area(columns, CELL_WORDS, random),
            _ => 0,
        },
        ..Ask::new(call, u64::from(number))
    };
    (ask, rows)
}

/// Those known, or of another length: none, whole rows or a byte beside them, about the most bytes.
pub fn rows(known: &Known, row_size: usize, random: &mut Random) -> Vec<u8> {
    let length = match random.below(16) {
        0 => 0,
        1 | 2 => random.one_of(LENGTHS),
        3 => MOST_ROWS + random.between(2, MOST_ROWS),
        4..=7 => row_size * random.between(1, 4) + random.below(3) - 1,
        _ => known.rows.len(),
    };
    let length = length.min(2 * MOST_ROWS);
    let mut rows = known.rows.clone();
    rows.truncate(length);
    rows.extend(random.bytes(length - rows.len()));
    rows
}

/// Mostly a row that is there, of so many; else about the end, or far behind it, where its place may look
/// like a small one to 16 or 32 bits.
pub fn row(count: usize, row_size: usize, random: &mut Random) -> u32 {
    let behind = match random.below(16) {
        0 => count,
        1 => count + 1,
        2 => count.saturating_sub(1),
        3 => return random.one_of([u32::MAX, u32::MAX - 1, 1 << 31, 1 << 16]),
        4 => (1_usize << random.one_of([16, 32])).div_ceil(row_size),
        5 => return random.number() as u32,
        _ => random.below(count),
    };
    behind as u32
}

pub fn index(columns: usize, random: &mut Random) -> u32 {
    let known = random.below(columns) as u32;
    match random.below(12) {
        0 => columns as u32,
        1 => (columns as u32).saturating_sub(1),
        2 => 255,
        3 => random.one_of([u32::MAX, 256 + known, 1 << 16 | known, 1 << 29 | known]),
        4 => random.number() as u32,
        5 => 0,
        _ => known,
    }
}

/// A known tag or one near it: the same id with another type, or one bit off.
pub fn tag(known: &[u32], random: &mut Random) -> u32 {
    let tag = random.pick(known).copied().unwrap_or(0x3001_001F);
    match random.below(16) {
        0 => 0,
        1 => tag ^ 1 << random.below(32),
        2 => tag & 0xFFFF_0000 | random.one_of([0, 2, 3, 0x1F, 0x102]),
        3 => tag.rotate_left(16),
        4 => random.number() as u32,
        _ => tag,
    }
}

/// A known id, or one near it.
pub fn id(known: &[u32], random: &mut Random) -> u32 {
    let id = random.pick(known).copied().unwrap_or(0x20_0024);
    match random.below(16) {
        0 => id.wrapping_add(1),
        1 => id.wrapping_sub(1),
        2 => id ^ 1 << random.below(32),
        3 => random.one_of([0, 1, u32::MAX]),
        4 => random.number() as u32,
        _ => id,
    }
}
