//! Calls on tables: one of the size that folders have, and wide ones.

use crate::calls::FIND_ROW_32;
use crate::{sum, Case, Sides, SEED};
use model::build::tables::{
    place_table, real_size, real_size_of, usual_layout, worked_example, GivenCell, GivenTable,
    Layout, PlacedTable, RowsPlace, ROW_ID,
};
use model::random::Random;
use model::{Column, Edition};
use rekwonuda_sys::{self as proved, CellAnswer};
use std::sync::Arc;

/// The real size's: the first column, a text; a time; the last column, one byte.
const TEXT: u32 = 0x0037_001F;
const TIME: u32 = 0x0E06_0040;
const LAST: u32 = 0x680C_000B;

/// The columns of a table's record stand behind so many bytes and take so many each.
const HEAD: usize = 22;
const COLUMN: usize = 8;

pub fn tables(sides: Sides) -> Vec<Case> {
    let real = Arc::new(real_size());
    let usual = "30 columns, 100 rows";
    let mut cases = vec![table(sides, usual, &real), count_rows(sides, usual, &real)];
    for (about, tag) in [
        ("first column, texts", TEXT),
        ("numbers of 8 bytes", TIME),
        ("numbers of 4 bytes", ROW_ID),
        ("last column, numbers of 1 byte", LAST),
    ] {
        cases.push(cell(sides, format!("{usual}; {about}"), &real, &[tag]));
    }
    let all = format!("{usual}; all columns");
    cases.push(cell(sides, all, &real, &tags(&real)));
    let find = sides.map(|calls| calls.find_row);
    cases.push(find_row(find, "find_row", usual, &real));
    cases.push(read_row(sides, usual, &real));
    for (about, placed) in others(&real) {
        let placed = Arc::new(placed);
        cases.push(table(sides, about, &placed));
        let all = format!("{about}; all columns");
        cases.push(cell(sides, all, &placed, &tags(&placed)));
        cases.push(read_row(sides, about, &placed));
    }
    cases
}

/// The one call on tables that is for 32-bit files alone.
pub fn row_index_of_32_bits() -> Case {
    let real = Arc::new(real_size_of(Edition::Bits32));
    find_row(FIND_ROW_32, "find_row32", "30 columns, 100 rows", &real)
}

/// A small one from 003; one whose heap has hardly an item; as many columns as a table can have, also in
/// long rows; and columns that are not stored by their tags.
fn others(real: &PlacedTable) -> [(&'static str, PlacedTable); 6] {
    let of = |columns: usize, kinds: &[u32]| {
        let tags = (0x3000..).zip(kinds.iter().cycle());
        let tags = tags.map(|(id, kind)| id << 16 | kind);
        // With the row's id and version as many as said.
        usual_layout(&tags.take(columns - 2).collect::<Vec<_>>())
    };
    let wide = placed(&of(255, &[3, 0x1F, 0x14, 2, 0xB]), 4);
    [
        ("13 columns, 3 rows", worked_example()),
        (
            "30 columns of 8 bytes, 30 rows",
            placed(&of(30, &[0x14]), 30),
        ),
        ("30 columns, tags in any order", reordered(real)),
        ("255 columns, 4 rows", wide.clone()),
        (
            "255 columns of 8 bytes, 3 rows",
            placed(&of(255, &[0x14]), 3),
        ),
        ("255 columns, tags in any order", reordered(&wide)),
    ]
}

/// So many rows in a subnode. Texts have four bytes each, and every other text is missing.
fn placed(layout: &Layout, rows: u64) -> PlacedTable {
    let cell = |row: u64, column: &Column| match column.tag as u16 {
        0x1F if row.is_multiple_of(2) => GivenCell::Bytes(vec![0x41; 4]),
        0x1F => GivenCell::Missing,
        _ => GivenCell::Number(row + u64::from(column.bit)),
    };
    let columns = &layout.columns;
    let row = |row| columns.iter().map(move |column| cell(row, column));
    let given = GivenTable {
        rows: (0..rows).map(|at| row(at).collect()).collect(),
        layout: layout.clone(),
        rows_place: RowsPlace::Subnode(0x3F),
        left_over: Vec::new(),
        row_index: [].into(),
        index_levels: 0,
        tidy: true,
    };
    place_table(&mut Random::new(SEED), &given)
}

fn shuffled<T>(mut list: Vec<T>) -> Vec<T> {
    let mut random = Random::new(SEED);
    for last in (1..list.len()).rev() {
        list.swap(last, random.below(last + 1));
    }
    list
}

/// The same columns at the same places of a row, stored in any order.
fn reordered(placed: &PlacedTable) -> PlacedTable {
    let mut placed = placed.clone();
    let record = model::item(&placed.block, placed.user_root).expect("the table's record");
    let record = &mut placed.block[record.start..record.start + record.length];
    let stored: Vec<_> = record[HEAD..].chunks(COLUMN).map(<[u8]>::to_vec).collect();
    record[HEAD..].copy_from_slice(&shuffled(stored).concat());
    placed.columns = shuffled(placed.columns);
    placed
}

fn tags(placed: &PlacedTable) -> Vec<u32> {
    placed.columns.iter().map(|column| column.tag).collect()
}

fn table(sides: Sides, input: &str, placed: &Arc<PlacedTable>) -> Case {
    Case::new("table", input, sides, |calls| {
        let placed = Arc::clone(placed);
        move || (calls.table)(&placed.block)
    })
}

fn count_rows(sides: Sides, input: &str, placed: &Arc<PlacedTable>) -> Case {
    Case::new("count_rows", input, sides, |calls| {
        let placed = Arc::clone(placed);
        move || (calls.count_rows)(&placed.block, &placed.rows)
    })
}

/// The rows and tags of a table in turn, so that no two calls in a row are alike.
struct Turns {
    rows: usize,
    tags: Vec<u32>,
    made: usize,
}

impl Turns {
    fn new(placed: &PlacedTable, tags: &[u32]) -> Self {
        Self {
            rows: placed.cells.len(),
            tags: tags.to_vec(),
            made: 0,
        }
    }

    fn next(&mut self) -> (u32, u32) {
        self.made = self.made.wrapping_add(37);
        let tag = self.tags[self.made % self.tags.len()];
        ((self.made % self.rows) as u32, tag)
    }
}

fn cell(sides: Sides, input: String, placed: &Arc<PlacedTable>, tags: &[u32]) -> Case {
    Case::new("cell", input, sides, |calls| {
        let (placed, mut turns) = (Arc::clone(placed), Turns::new(placed, tags));
        move || {
            let (row, tag) = turns.next();
            let cell = (calls.cell)(&placed.block, &placed.rows, row, tag);
            cell.expect("it is there")
        }
    })
}

fn find_row(
    find: [fn(&[u8], u32) -> u64; 2],
    call: &'static str,
    input: &str,
    placed: &Arc<PlacedTable>,
) -> Case {
    let ids: Vec<_> = placed.row_index.keys().copied().collect();
    let input = format!("{input}; {} ids", ids.len());
    let work = |find: fn(&[u8], u32) -> u64| {
        let (placed, mut turns) = (Arc::clone(placed), Turns::new(placed, &ids));
        move || find(&placed.block, turns.next().1)
    };
    Case::of(call, input, find.map(work))
}

/// A row in one call, on both sides, and by a call for each cell; all three fill an area of places.
fn read_row(sides: Sides, input: &str, placed: &Arc<PlacedTable>) -> Case {
    let columns = tags(placed);
    let (single, mut single_turns) = (Arc::clone(placed), Turns::new(placed, &columns));
    // By the time the single calls are held to it, the one call has had its first turn.
    single_turns.next();
    let mut single_cells = vec![[0; CellAnswer::WORDS]; columns.len()];
    Case::new("read_row", input, sides, |calls| {
        let (placed, mut turns) = (Arc::clone(placed), Turns::new(placed, &columns));
        let mut area = vec![0; CellAnswer::WORDS * columns.len()];
        move || {
            let row = turns.next().0;
            assert!((calls.read_row)(
                &placed.block,
                &placed.rows,
                row,
                &mut area
            ));
            sum(&area)
        }
    })
    .with_singles(move || {
        let row = single_turns.next().0;
        for (place, tag) in single_cells.iter_mut().zip(&columns) {
            *place = proved::cell(&single.block, &single.rows, row, *tag).fields();
        }
        sum(single_cells.as_flattened())
    })
}
