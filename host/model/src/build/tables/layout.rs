//! Where the columns of a table lie in its rows.

use crate::random::Random;
use crate::table::{is_reference, Column};

/// The row's id, a node's number in the tables of folders.
pub const ROW_ID: u32 = 0x67F2_0003;
pub const ROW_VERSION: u32 = 0x67F3_0003;

/// The columns in stored order, and the four ends of 003's `rgib`: of columns of eight and four bytes, of
/// two, of one, which is where the existence bytes begin, and of the row.
#[derive(Clone, Debug)]
pub struct Layout {
    pub columns: Vec<Column>,
    pub ends: [u16; 4],
}

impl Layout {
    /// The byte of the row that has the column's existence bit, and its mask.
    pub fn existence_bit(&self, column: Column) -> (usize, u8) {
        let at = usize::from(self.ends[2]) + usize::from(column.bit / 8);
        (at, 0x80 >> (column.bit % 8))
    }
}

pub fn usual_width(tag: u32) -> u8 {
    match tag as u16 {
        kind if is_reference(kind) => 4,
        0xB => 1,
        2 => 2,
        3 | 4 | 0xA => 4,
        _ => 8,
    }
}

/// The row's id and its version, then those columns, whose bits follow this order; stored by their tags.
/// Columns of eight and four bytes come first in a row, then those of two, then those of one.
pub fn usual_layout(tags: &[u32]) -> Layout {
    let tags: Vec<_> = [ROW_ID, ROW_VERSION].iter().chain(tags).copied().collect();
    let mut columns = Vec::new();
    let mut ends = [0; 4];
    let mut end = 0;
    for (class, widths) in [[8, 4], [2, 2], [1, 1]].iter().enumerate() {
        for (bit, &tag) in tags.iter().enumerate() {
            let width = usual_width(tag);
            if widths.contains(&width) {
                columns.push(Column {
                    tag,
                    offset: end,
                    width,
                    bit: bit as u8,
                });
                end += u16::from(width);
            }
        }
        ends[class] = end;
    }
    ends[3] = end + tags.len().div_ceil(8) as u16;
    columns.sort_by_key(|column| column.tag);
    Layout { columns, ends }
}

/// Those tags in that order, each of a width that its type allows, at any place with any bit, with gaps
/// now and then, and with more existence bytes than needed; the rows of some are too long for a block.
pub fn odd_layout(random: &mut Random, tags: &[u32]) -> Layout {
    let least = tags.len().div_ceil(8);
    let existence_bytes = random.between(least, 32);
    let mut bits: Vec<_> = (0..8 * existence_bytes).map(|bit| bit as u8).collect();
    shuffle(random, &mut bits);
    let widths = tags.iter().map(|&tag| {
        if is_reference(tag as u16) {
            4
        } else {
            random.one_of([1, 2, 4, 8])
        }
    });
    let widths: Vec<u8> = widths.collect();
    let mut order: Vec<_> = (0..tags.len()).collect();
    shuffle(random, &mut order);
    let mut offsets = vec![0; tags.len()];
    let mut end = if random.one_in(20) {
        random.below(40_000) as u16
    } else {
        0
    };
    for at in order {
        offsets[at] = end + gap(random);
        end = offsets[at] + u16::from(widths[at]);
    }
    let existence = end + gap(random);
    // A row has at least one byte.
    let row_size = (existence + existence_bytes as u16).max(1);
    let column = |at: usize| Column {
        tag: tags[at],
        offset: offsets[at],
        width: widths[at],
        bit: bits[at],
    };
    Layout {
        columns: (0..tags.len()).map(column).collect(),
        ends: [random.number() as u16, existence, existence, row_size],
    }
}

fn gap(random: &mut Random) -> u16 {
    if random.one_in(12) {
        random.below(9) as u16
    } else {
        0
    }
}

pub fn shuffle<T>(random: &mut Random, list: &mut [T]) {
    for end in (1..list.len()).rev() {
        list.swap(end, random.below(end + 1));
    }
}
