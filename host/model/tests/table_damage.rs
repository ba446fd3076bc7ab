//! Each kind of damage to a table leads to the refusal of its rule in the calls that look there, and what
//! lies just inside the line is allowed.

use model::build::tables::any_table_of;
use model::damage::table::{
    spoil_anywhere, spoil_table, Side, SpoiltTable, TableDamage, CELLS, ROWS, ROW_INDEX,
};
use model::edition::Edition;
use model::random::Random;
use model::table::{in_words, WORDS};
use model::{cell, column, count_rows, find_row, find_row32, read_row, table, Answer};
use std::collections::BTreeSet;

const TABLES: usize = 60;
const TRIES: usize = 4;

/// The damage to some tables of an edition; those that have nothing for it do not count.
fn spoilt(edition: Edition, damage: TableDamage, side: Side) -> Vec<SpoiltTable> {
    let mut random = Random::new(23);
    let tables = (0..TABLES).map(|_| any_table_of(edition, &mut random));
    let tables: Vec<_> = tables.collect();
    let tried = tables.iter().flat_map(|placed| {
        let tries = (0..TRIES).filter_map(|_| spoil_table(placed, damage, side, &mut random));
        tries.collect::<Vec<_>>()
    });
    tried.collect()
}

/// The refusals of some calls, 0 for an answer: of those that test the table's shape alone, those that go
/// on to its rows, those that go on to a cell, and those that go on to the row index.
struct Asked {
    shape: BTreeSet<u64>,
    rows: BTreeSet<u64>,
    cells: BTreeSet<u64>,
    row_index: BTreeSet<u64>,
}

fn number_of<T>(answer: Answer<T>) -> u64 {
    answer.map_or_else(
        |refusal| {
            assert_eq!((refusal.place, refusal.more), (0, 0));
            refusal.number
        },
        |_| 0,
    )
}

/// The row index is asked by the call of its edition.
fn find(edition: Edition, block: &[u8], id: u32) -> Answer<Option<u32>> {
    match edition {
        Edition::Bits64 => find_row(block, id),
        Edition::Bits32 => find_row32(block, id),
    }
}

fn ask(edition: Edition, spoilt: &SpoiltTable) -> Asked {
    let SpoiltTable { block, rows, .. } = spoilt;
    let columns = [0, 7, 255, u32::MAX].map(|at| number_of(column(block, at)));
    let mut shape: BTreeSet<_> = columns.into();
    shape.insert(number_of(table(block)));
    let cells = spoilt.row_numbers.iter().flat_map(|&row| {
        let tags = spoilt.tags.iter();
        tags.map(move |&tag| number_of(cell(block, rows, row, tag)))
    });
    let ids = spoilt.ids.iter();
    Asked {
        shape,
        rows: [
            number_of(count_rows(block, rows)),
            number_of(cell(block, rows, u32::MAX, 0)),
            number_of(read_row(block, rows, u32::MAX, &mut [])),
        ]
        .into(),
        cells: cells.collect(),
        row_index: ids.map(|&id| number_of(find(edition, block, id))).collect(),
    }
}

const NONE: [u64; 1] = [0];

fn assert_refused(edition: Edition, damage: TableDamage, spoilt: &SpoiltTable) {
    let refusal = [damage.refusal()];
    let asked = ask(edition, spoilt);
    let in_rows = ROWS.contains(&damage);
    let in_cells = CELLS.contains(&damage);
    let in_index = ROW_INDEX.contains(&damage);
    let in_shape = !in_rows && !in_cells && !in_index;
    let expected = |refused: bool| if refused { refusal } else { NONE }.into();
    assert_eq!(asked.shape, expected(in_shape), "{damage:?}");
    assert_eq!(asked.rows, expected(in_shape || in_rows), "{damage:?}");
    assert_eq!(
        asked.row_index,
        expected(in_shape || in_index),
        "{damage:?}"
    );
    if in_cells {
        assert_eq!(asked.cells, [0, refusal[0]].into(), "{damage:?}");
    } else if !asked.cells.is_empty() {
        assert_eq!(asked.cells, expected(in_shape || in_rows), "{damage:?}");
    }
}

fn assert_allowed(edition: Edition, damage: TableDamage, spoilt: &SpoiltTable) {
    let asked = ask(edition, spoilt);
    for answers in [asked.shape, asked.rows, asked.cells, asked.row_index] {
        assert!(answers.is_empty() || answers == NONE.into(), "{damage:?}");
    }
    for &id in &spoilt.ids {
        let found = find(edition, &spoilt.block, id).expect("it is allowed");
        assert!(found.is_some(), "{damage:?}: row {id:x}");
    }
    let rows = count_rows(&spoilt.block, &spoilt.rows).expect("it is allowed");
    assert!(rows >= spoilt.row_numbers.len() || damage == TableDamage::EmptyRow);
}

#[test]
fn every_kind() {
    let kinds = TableDamage::all();
    for (edition, damage) in kinds.flat_map(|kind| Edition::BOTH.map(|edition| (edition, kind))) {
        let refused = spoilt(edition, damage, Side::Refused);
        assert!(refused.len() > TRIES * TABLES / 4, "{damage:?}");
        for table in &refused {
            assert_refused(edition, damage, table);
        }
        let allowed = spoilt(edition, damage, Side::Allowed);
        assert!(allowed.len() > TRIES * TABLES / 4, "{damage:?}");
        for table in &allowed {
            assert_allowed(edition, damage, table);
        }
    }
}

/// The other columns of the row are read all the same.
#[test]
fn a_row_with_a_wrong_item() {
    for spoilt in spoilt(Edition::Bits64, TableDamage::CellItem, Side::Refused) {
        let SpoiltTable { block, rows, .. } = &spoilt;
        let mut refused = 0;
        for &row in &spoilt.row_numbers {
            let mut area = vec![0; WORDS * spoilt.tags.len()];
            let read = read_row(block, rows, row, &mut area);
            assert_eq!(read, Ok(Some(spoilt.tags.len())));
            for (&tag, place) in spoilt.tags.iter().zip(area.chunks(WORDS)) {
                assert_eq!(place, in_words(cell(block, rows, row, tag)));
                refused += usize::from(place == [19, 0, 0, 0, 0, 0]);
            }
        }
        assert_eq!(refused, 1);
    }
}

/// Nothing but a sound table or one of the three refusals comes of damage without thought.
#[test]
fn damage_anywhere() {
    let mut random = Random::new(77);
    let mut seen = BTreeSet::new();
    for _ in 0..400 {
        let edition = random.one_of(Edition::BOTH);
        let placed = any_table_of(edition, &mut random);
        let asked = ask(edition, &spoil_anywhere(&placed, &mut random));
        for answers in [asked.shape, asked.rows, asked.cells, asked.row_index] {
            seen.extend(answers);
        }
    }
    assert_eq!(seen, [0, 18, 19, 23].into());
}
