//! A choice of tables, the same each time: sound ones of all shapes, one for each kind of damage, some of
//! files of 32 bits, and some of the most bytes. They are the files of the crate `contexts`, whose program
//! asks the proved reader what [`report`] asks here.

mod limits;
mod report;

use crate::build::tables::{
    odd_layout, place_table, place_table_of, real_size, real_size_of, table_context, usual_layout,
    worked_example, GivenCell, GivenTable, Layout, PlacedTable, RowsPlace, TablePlan, ROW_ID,
};
use crate::damage::table::{spoil_table, Side, TableDamage};
use crate::edition::Edition;
use crate::random::Random;
use crate::table::Rows;

pub use report::report;

/// A table and, where its rows lie in a subnode, the block of the rows.
#[derive(Clone, Debug)]
pub struct Context {
    pub name: String,
    /// Of the row index.
    pub edition: Edition,
    pub block: Vec<u8>,
    pub rows: Option<Vec<u8>>,
}

/// Damage that needs a block of rows longer than a table of a few rows has; see [`limits`].
const TOO_LONG: TableDamage = TableDamage::RowsLonger;

const MOST_SEEDS: u64 = 1000;

/// The name and the bytes of each file that the program reads.
pub fn files() -> Vec<(String, Vec<u8>)> {
    let mut files = Vec::new();
    for context in contexts() {
        files.push((format!("{}.heap", context.name), context.block));
        files.extend(
            context
                .rows
                .map(|rows| (format!("{}.rows", context.name), rows)),
        );
    }
    files
}

/// Their names begin with their numbers.
pub fn contexts() -> Vec<Context> {
    let mut contexts = sound();
    let kinds = TableDamage::all().filter(|&damage| damage != TOO_LONG);
    contexts.extend(kinds.map(|damage| damaged(Edition::Bits64, damage)));
    contexts.extend(narrow());
    contexts.extend(limits::contexts());
    for (at, context) in contexts.iter_mut().enumerate() {
        context.name = format!("{:02}-{}", at + 1, context.name);
    }
    contexts
}

fn sound() -> Vec<Context> {
    let placed = |seed, size, place, levels, usual| {
        placed(Edition::Bits64, seed, size, place, levels, usual)
    };
    let level = |index_levels| placed(7, [6, 40], RowsPlace::Item, index_levels, true);
    let named = [
        ("no-columns", no_columns()),
        ("one-column", placed(1, [1, 3], RowsPlace::Item, 0, false)),
        ("worked-example", worked_example()),
        ("30-columns", real_size()),
        ("255-columns", placed(2, [255, 6], RowsPlace::Item, 0, true)),
        ("rows-none", placed(3, [9, 0], RowsPlace::None, 0, true)),
        ("left-over", left_over()),
        ("index-level-1", level(1)),
        ("index-level-2", level(2)),
        ("index-level-3", level(3)),
        ("cells", cells(Edition::Bits64)),
        ("unsorted", unsorted()),
        (
            "odd",
            placed(5, [17, 4], RowsPlace::Subnode(0x8011), 1, false),
        ),
    ];
    named.into_iter().map(context_of).collect()
}

fn context_of((name, placed): (&str, PlacedTable)) -> Context {
    Context {
        name: name.into(),
        edition: placed.edition,
        rows: match placed.table.rows {
            Rows::Subnode(_) => Some(placed.rows),
            _ => None,
        },
        block: placed.block,
    }
}

/// Tables of files of 32 bits: of all depths of the row index, and with damage to it.
fn narrow() -> Vec<Context> {
    let edition = Edition::Bits32;
    let level = |levels| placed(edition, 7, [6, 40], RowsPlace::Item, levels, true);
    let sound = [
        ("cells", cells(edition)),
        ("30-columns", real_size_of(edition)),
        (
            "rows-none",
            placed(edition, 3, [9, 0], RowsPlace::None, 0, true),
        ),
        ("index-level-1", level(1)),
        ("index-level-2", level(2)),
        ("index-level-3", level(3)),
    ];
    let spoilt = [
        TableDamage::IndexChild,
        TableDamage::IndexEntrySize,
        TableDamage::IndexPartRecord,
        TableDamage::IndexKeyEqual,
        TableDamage::IndexKeyAtEnd,
    ];
    let spoilt = spoilt.map(|damage| damaged(edition, damage));
    let mut contexts: Vec<_> = sound.into_iter().map(context_of).chain(spoilt).collect();
    for context in &mut contexts {
        context.name = format!("bits32-{}", context.name);
    }
    contexts
}

/// A table of so many columns and rows.
fn placed(
    edition: Edition,
    seed: u64,
    [columns, rows]: [usize; 2],
    rows_place: RowsPlace,
    index_levels: u8,
    usual: bool,
) -> PlacedTable {
    let plan = TablePlan {
        edition,
        columns,
        rows,
        rows_place,
        index_levels,
        most_value: 12,
        usual,
        tidy: false,
    };
    table_context(&mut Random::new(seed), plan)
}

fn given(layout: Layout, rows: Vec<Vec<GivenCell>>, rows_place: RowsPlace) -> GivenTable {
    let ids = (0..rows.len() as u32).map(|row| (0x8022 + 0x20 * row, row));
    GivenTable {
        row_index: ids.collect(),
        layout,
        rows,
        rows_place,
        left_over: Vec::new(),
        index_levels: 0,
        tidy: true,
    }
}

fn no_columns() -> PlacedTable {
    let layout = Layout {
        columns: Vec::new(),
        ends: [0, 0, 0, 1],
    };
    let given = given(layout, vec![Vec::new(); 3], RowsPlace::Item);
    place_table(&mut Random::new(0), &given)
}

/// The columns of most tables here but the row's id and version: a text, a number of eight bytes, one of
/// two and one of one, and a list of bytes.
const TAGS: [u32; 5] = [
    0x3001_001F,
    0x0E33_0014,
    0x3600_0002,
    0x360A_000B,
    0x0E30_0102,
];

/// Three rows; in each the cells of another kind.
fn three_rows(layout: &Layout) -> Vec<Vec<GivenCell>> {
    let cell = |row: u32, tag: u32| match tag as u16 {
        _ if tag == ROW_ID => GivenCell::Number(u64::from(0x8022 + 0x20 * row)),
        0x1F | 0x102 => match row {
            0 => GivenCell::Bytes(vec![0x41, 0, 0x42, 0]),
            1 => GivenCell::Empty,
            _ => GivenCell::Subnode(0x813F),
        },
        0x14 => GivenCell::Number(u64::MAX - u64::from(row)),
        0xB if row == 1 => GivenCell::Missing,
        _ => GivenCell::Number(u64::from(tag >> 16)),
    };
    let row = |row| {
        let columns = layout.columns.iter();
        columns.map(move |column| cell(row, column.tag)).collect()
    };
    (0..3).map(row).collect()
}

fn cells(edition: Edition) -> PlacedTable {
    let layout = usual_layout(&TAGS);
    let rows = three_rows(&layout);
    let given = given(layout, rows, RowsPlace::Item);
    place_table_of(edition, &mut Random::new(0), &given)
}

/// Rows in a subnode's block, with all but one byte of a fourth row behind them.
fn left_over() -> PlacedTable {
    let layout = usual_layout(&TAGS);
    let rows = three_rows(&layout);
    let left_over = vec![0xFF; usize::from(layout.ends[3]) - 1];
    let given = GivenTable {
        left_over,
        ..given(layout, rows, RowsPlace::Subnode(0x3F))
    };
    place_table(&mut Random::new(0), &given)
}

/// Tags that fall, and columns that lie in another order.
fn unsorted() -> PlacedTable {
    let mut tags = TAGS.to_vec();
    tags.push(ROW_ID);
    tags.sort_unstable_by(|one, other| other.cmp(one));
    let layout = odd_layout(&mut Random::new(3), &tags);
    let rows = three_rows(&layout);
    place_table(&mut Random::new(0), &given(layout, rows, RowsPlace::Item))
}

/// The first seed by which the damage shows in the report.
fn damaged(edition: Edition, damage: TableDamage) -> Context {
    let refusal = damage.refusal();
    let name = format!("refusal-{refusal}-{damage:?}").to_lowercase();
    let placed = cells(edition);
    let spoilt = (0..MOST_SEEDS).find_map(|seed| {
        let spoilt = spoil_table(&placed, damage, Side::Refused, &mut Random::new(seed))?;
        let context = Context {
            name: name.clone(),
            edition,
            block: spoilt.block,
            rows: None,
        };
        let shown = report::shows(&context, refusal);
        shown.then_some(context)
    });
    spoilt.expect("a seed that leads to the refusal")
}
