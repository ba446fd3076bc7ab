//! Tables at random, and one of the size that folders have.

use super::layout::shuffle;
use super::{
    odd_layout, place_table_of, usual_layout, GivenCell, GivenTable, Layout, PlacedTable,
    RowsPlace, ROW_ID, ROW_VERSION,
};
use crate::edition::Edition;
use crate::heap::MOST_HEAP;
use crate::random::Random;
use crate::table::{is_reference, Column, MOST_ROWS};
use std::collections::{BTreeMap, BTreeSet};

#[derive(Clone, Copy, Debug)]
pub struct TablePlan {
    pub edition: Edition,
    /// At most 255.
    pub columns: usize,
    pub rows: usize,
    pub rows_place: RowsPlace,
    pub index_levels: u8,
    pub most_value: usize,
    /// The row's id and its version, then other columns in the usual layout, where there is room for
    /// both; else any columns in any order.
    pub usual: bool,
    pub tidy: bool,
}

/// Types of values that stand in a row, and of values that do not; some of them no property has.
const NUMBERS: [u16; 14] = [2, 3, 4, 5, 6, 7, 0xA, 0xB, 0x14, 0x40, 0, 1, 0x101, 0x2003];
const REFERENCES: [u16; 11] = [
    0x1F, 0x1E, 0x102, 0x0D, 0x48, 0x1F, 0x101F, 0x1003, 0x1102, 0x1000, 0xFFFF,
];

/// A table whose block and rows take at most 8,180 bytes each; too large a plan is cut down.
pub fn table_context(random: &mut Random, mut plan: TablePlan) -> PlacedTable {
    loop {
        let given = any_given(random, plan);
        let placed = place_table_of(plan.edition, random, &given);
        if placed.block.len() <= MOST_HEAP && placed.rows.len() <= MOST_ROWS {
            return placed;
        }
        plan.rows = plan.rows * 3 / 4;
        plan.most_value = plan.most_value * 3 / 4;
    }
}

/// A table of a 64-bit file; shapes of all kinds come up.
pub fn any_table(random: &mut Random) -> PlacedTable {
    any_table_of(Edition::Bits64, random)
}

pub fn any_table_of(edition: Edition, random: &mut Random) -> PlacedTable {
    let most = random.one_of([0, 1, 4, 13, 13, 30, 30, 80, 255]);
    let subnode = RowsPlace::Subnode(random.number() as u32 | 1);
    let plan = TablePlan {
        edition,
        columns: random.below(most + 1).max(most * random.below(2)),
        rows: random.one_of([0, 1, 3, 10, 40, 120]),
        rows_place: random.one_of([RowsPlace::None, RowsPlace::Item, RowsPlace::Item, subnode]),
        index_levels: random.below(4) as u8,
        most_value: random.one_of([0, 8, 30]),
        usual: random.one_in(2),
        tidy: random.one_in(3),
    };
    table_context(random, plan)
}

fn any_given(random: &mut Random, plan: TablePlan) -> GivenTable {
    let layout = any_layout(random, plan);
    let too_long = usize::from(layout.ends[3]) > MOST_ROWS;
    let count = if too_long || plan.rows_place == RowsPlace::None {
        0
    } else {
        plan.rows
    };
    let ids: BTreeSet<_> = (0..count).map(|at| any_id(random, plan, at)).collect();
    let mut ids: Vec<_> = ids.into_iter().collect();
    shuffle(random, &mut ids);
    let row = |&id: &u32| {
        let columns = layout.columns.iter();
        let cells = columns.map(|column| any_cell(random, plan, *column, id));
        cells.collect()
    };
    let rows: Vec<Vec<_>> = ids.iter().map(row).collect();
    let left_over = if plan.tidy || too_long || plan.rows_place == RowsPlace::None {
        0
    } else {
        random.below(usize::from(layout.ends[3]))
    };
    GivenTable {
        row_index: any_row_index(random, plan, &ids),
        layout,
        rows,
        rows_place: plan.rows_place,
        left_over: random.bytes(left_over),
        index_levels: plan.index_levels,
        tidy: plan.tidy,
    }
}

fn any_layout(random: &mut Random, plan: TablePlan) -> Layout {
    if plan.usual && plan.columns >= 2 {
        let tags = any_tags(random, plan.columns - 2);
        return usual_layout(&tags);
    }
    let mut tags = any_tags(random, plan.columns);
    // Tables without the row's id are tables too.
    if let (Some(tag), true) = (tags.first_mut(), random.one_in(2)) {
        *tag = ROW_ID;
    }
    if random.one_in(2) {
        tags.sort_unstable();
    }
    odd_layout(random, &tags)
}

/// Different tags in any order, none of them that of the row's id or version. Some have the same id.
fn any_tags(random: &mut Random, count: usize) -> Vec<u32> {
    let mut tags = BTreeSet::new();
    while tags.len() < count {
        let id = match random.below(4) {
            0 => random.number() as u32 & 0xFFFF,
            1 => 0x3000 + random.below(64) as u32,
            2 => 0x0E00 + random.below(256) as u32,
            _ => 0x6600 + random.below(512) as u32,
        };
        let kind = if random.one_in(2) {
            random.one_of(NUMBERS)
        } else {
            random.one_of(REFERENCES)
        };
        let tag = id << 16 | u32::from(kind);
        if ![ROW_ID, ROW_VERSION].contains(&tag) {
            tags.insert(tag);
        }
    }
    let mut tags: Vec<_> = tags.into_iter().collect();
    shuffle(random, &mut tags);
    tags
}

fn any_id(random: &mut Random, plan: TablePlan, at: usize) -> u32 {
    match random.below(4) {
        0 if !plan.tidy => random.number() as u32,
        1 if !plan.tidy => random.below(64) as u32,
        _ => 0x20_0024 + 0x20 * at as u32,
    }
}

fn any_cell(random: &mut Random, plan: TablePlan, column: Column, id: u32) -> GivenCell {
    if column.tag == ROW_ID {
        return GivenCell::Number(u64::from(id));
    }
    let number = random.number() >> random.below(64);
    match random.below(6) {
        0 => GivenCell::Missing,
        _ if !is_reference(column.tag as u16) => GivenCell::Number(number),
        1 => GivenCell::Empty,
        2 => GivenCell::Subnode(number as u32 | 1),
        _ => {
            let length = random.below(plan.most_value + 1);
            GivenCell::Bytes(random.bytes(length))
        }
    }
}

/// The rows by their ids; an untidy index has other rows too, and lacks some.
fn any_row_index(random: &mut Random, plan: TablePlan, ids: &[u32]) -> BTreeMap<u32, u32> {
    let rows = ids.iter().enumerate().map(|(row, &id)| (id, row as u32));
    let mut index: BTreeMap<_, _> = rows.collect();
    if !plan.tidy {
        let highest = u32::MAX >> (32 - 8 * plan.edition.layout().row_number);
        for _ in 0..random.below(4) {
            let (id, row) = (random.number() as u32, random.number() as u32);
            index.insert(id, row & highest);
        }
        if let (Some(id), true) = (random.pick(ids), random.one_in(4)) {
            index.remove(id);
        }
    }
    index
}

/// 30 columns in the usual layout and 100 rows of 81 bytes in a subnode's block, two of the columns with
/// an item in each row; each time the same, of a 64-bit file.
pub fn real_size() -> PlacedTable {
    real_size_of(Edition::Bits64)
}

pub fn real_size_of(edition: Edition) -> PlacedTable {
    let mut random = Random::new(30_100);
    let layout = usual_layout(&real_tags());
    let row = |at: u32| {
        let columns = layout.columns.iter();
        let cells = columns.map(|column| real_cell(&mut random, *column, at));
        cells.collect()
    };
    let rows: Vec<Vec<_>> = (0..100).map(row).collect();
    let given = GivenTable {
        layout,
        rows,
        rows_place: RowsPlace::Subnode(0x0000_003F),
        left_over: Vec::new(),
        row_index: (0..100).map(|row| (real_id(row), row)).collect(),
        index_levels: 0,
        tidy: true,
    };
    place_table_of(edition, &mut random, &given)
}

/// Ids as messages have them, row by row.
fn real_id(row: u32) -> u32 {
    0x20_0024 + 0x20 * row
}

/// One time, seven numbers of four bytes, two texts and a list of bytes, four numbers of two bytes and
/// thirteen truths: with the row's id and version 30 columns.
fn real_tags() -> Vec<u32> {
    let mut tags = vec![0x0E06_0040, 0x0037_001F, 0x0042_001F, 0x0071_0102];
    tags.extend((0..7).map(|at| 0x0E07_0003 + 0x1_0000 * at));
    tags.extend((0..4).map(|at| 0x3600_0002 + 0x1_0000 * at));
    tags.extend((0..13).map(|at| 0x6800_000B + 0x1_0000 * at));
    tags
}

fn real_cell(random: &mut Random, column: Column, row: u32) -> GivenCell {
    match column.tag as u16 {
        0x1F => GivenCell::Bytes(random.bytes(16)),
        0x102 => GivenCell::Missing,
        0xB => GivenCell::Number(u64::from(random.one_in(2))),
        _ if column.tag == ROW_ID => GivenCell::Number(u64::from(real_id(row))),
        _ => GivenCell::Number(random.number()),
    }
}
