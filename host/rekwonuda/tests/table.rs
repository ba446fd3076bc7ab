//! Tables: what is answered is what was built, and what is refused is refused by the right number.

use model::build::tables::{any_table, any_table_of, real_size, PlacedTable};
use model::random::Random;
use rekwonuda::{
    Cell, Column, Edition, Fault, Heap, ItemId, NodeId, Refusal, RowsPlace, Table, Tag,
};

const TABLES: u64 = 100;

/// A name that a column of the table at hand can have: 0x3001001F.
const NAME: Tag = Tag::new(0x3001, 0x1F);

fn tables() -> impl Iterator<Item = PlacedTable> {
    (0..TABLES).map(|seed| any_table(&mut Random::new(seed)))
}

fn of(placed: &PlacedTable) -> Table<'_> {
    Table::new(&placed.block).with_rows(&placed.rows)
}

fn rows_place(rows: model::Rows) -> RowsPlace {
    match rows {
        model::Rows::None => RowsPlace::Nowhere,
        model::Rows::Item(item) => RowsPlace::Item(ItemId(item)),
        model::Rows::Subnode(subnode) => RowsPlace::Subnode(NodeId(subnode)),
    }
}

fn cell(cell: model::Cell) -> Cell {
    match cell {
        model::Cell::Number(number) => Cell::Number(number),
        model::Cell::Empty => Cell::Empty,
        model::Cell::Item(item) => Cell::Item(ItemId(item)),
        model::Cell::Subnode(subnode) => Cell::Subnode(NodeId(subnode)),
        model::Cell::Missing => Cell::Missing,
    }
}

#[test]
fn records_and_columns_are_those_that_were_built() {
    for placed in tables() {
        let table = of(&placed);
        let record = table.record().unwrap();
        assert_eq!(record.columns, placed.table.columns);
        assert_eq!(record.row_size, placed.table.row_size);
        assert_eq!(record.existence, placed.table.existence);
        assert_eq!(record.rows, rows_place(placed.table.rows));
        let columns: Vec<Column> = table.columns().map(Result::unwrap).collect();
        assert_eq!(columns.len(), placed.columns.len());
        for (column, built) in columns.iter().zip(&placed.columns) {
            assert_eq!(
                (column.tag.0, column.offset, column.width, column.bit),
                (built.tag, built.offset, built.width, built.bit)
            );
        }
        for column in columns.first().iter().chain(&columns.last()) {
            assert_eq!(table.find_column(column.tag), Ok(Some(**column)));
        }
        assert_eq!(table.find_column(Tag(u32::MAX)), Ok(None));
        assert_eq!(table.heap().client_kind(), Ok(Heap::TABLE));
    }
}

#[test]
fn cells_are_those_that_were_built() {
    let mut kinds = [0; 5];
    for placed in tables() {
        let table = of(&placed);
        let rows = placed.cells.len() as u32;
        assert_eq!(table.row_count(), Ok(Some(rows)));
        for (row, built) in (0..).zip(&placed.cells) {
            let wanted: Vec<_> = built.iter().map(|built| Ok(cell(*built))).collect();
            for (column, wanted) in placed.columns.iter().zip(&wanted).take(9) {
                assert_eq!(table.cell(row, Tag(column.tag)), wanted.map(Some));
            }
            for cell in wanted.iter().flatten() {
                kinds[kind(*cell)] += 1;
            }
            assert_eq!(table.row(row), Ok(Some(wanted)));
        }
        assert_eq!(table.row(rows), Ok(None));
        let first = placed
            .columns
            .first()
            .map_or(NAME, |column| Tag(column.tag));
        assert_eq!(table.cell(rows, first), Ok(None));
        assert_eq!(table.cell(0, Tag(u32::MAX)), Ok(None));
    }
    assert!(kinds.iter().all(|met| *met > 100), "{kinds:?}");
}

fn kind(cell: Cell) -> usize {
    match cell {
        Cell::Number(_) => 0,
        Cell::Empty => 1,
        Cell::Item(_) => 2,
        Cell::Subnode(_) => 3,
        Cell::Missing => 4,
    }
}

#[test]
fn rows_are_found_by_their_ids() {
    let mut found = 0;
    for placed in tables() {
        let table = Table::new(&placed.block);
        for (id, row) in &placed.row_index {
            assert_eq!(table.find_row(*id), Ok(Some(*row)));
            found += 1;
            let next = id.wrapping_add(1);
            let wanted = placed.row_index.get(&next).copied();
            assert_eq!(table.find_row(next), Ok(wanted));
        }
    }
    assert!(found > 1000, "{found}");
}

/// A row index is of one edition, and refused as one of the other.
#[test]
fn rows_are_found_by_their_edition() {
    let mut found = 0;
    for (seed, built) in (0..TABLES).flat_map(|seed| model::Edition::BOTH.map(|of| (seed, of))) {
        let placed = any_table_of(built, &mut Random::new(seed));
        let table = Table::new(&placed.block);
        let (own, other) = match built {
            model::Edition::Bits64 => (Edition::Bits64, Edition::Bits32),
            model::Edition::Bits32 => (Edition::Bits32, Edition::Bits64),
        };
        for (id, row) in placed.row_index.iter().take(5) {
            assert_eq!(table.find_row_in(own, *id), Ok(Some(*row)));
            found += 1;
        }
        let refusal = table.find_row_in(other, 0).unwrap_err();
        assert_eq!(refusal.fault, Fault::TableShape);
        assert_eq!(table.find_row32(0), table.find_row_in(Edition::Bits32, 0));
        assert_eq!(table.find_row(0), table.find_row_in(Edition::Bits64, 0));
    }
    assert!(found > 100, "{found}");
}

#[test]
fn the_count_of_rows_that_are_not_given_is_not_known() {
    let placed = real_size();
    let table = Table::new(&placed.block);
    assert!(matches!(
        table.record().unwrap().rows,
        RowsPlace::Subnode(_)
    ));
    assert_eq!(table.row_count(), Ok(None));
    assert_eq!(table.row(0), Ok(None));
    assert_eq!(table.cell(0, Tag::ROW_ID), Ok(None));
    assert_eq!(table.with_rows(&placed.rows).row_count(), Ok(Some(100)));
    assert_eq!(table.with_rows(&[]).row_count(), Ok(Some(0)));
    assert!(table.with_rows(&[0; 8_180]).row_count().is_ok());
    let refusal = table.with_rows(&[0; 8_181]).row_count().unwrap_err();
    assert_eq!(refusal.fault, Fault::TableShape);
    assert_eq!(table.columns().count(), 30);
}

/// What each call says of a table that is refused before its rows are looked at.
fn all_refuse(block: &[u8], fault: Fault) {
    let table = Table::new(block);
    let refusal = Refusal {
        fault,
        place: 0,
        more: 0,
    };
    assert_eq!(table.record(), Err(refusal));
    assert_eq!(table.columns().collect::<Vec<_>>(), [Err(refusal)]);
    assert_eq!(table.find_column(NAME), Err(refusal));
    assert_eq!(table.row_count(), Err(refusal));
    assert_eq!(table.with_rows(&[]).row_count(), Err(refusal));
    assert_eq!(table.cell(0, NAME), Err(refusal));
    assert_eq!(table.row(0), Err(refusal));
    assert_eq!(table.find_row(0), Err(refusal));
    assert_eq!(table.find_row32(0), Err(refusal));
}

#[test]
fn a_table_of_a_wrong_shape_is_refused_by_every_call() {
    all_refuse(b"", Fault::HeapShape);
    let placed = real_size();
    let changed = |at: usize, byte: u8| {
        let mut block = placed.block.clone();
        block[at] = byte;
        block
    };
    all_refuse(&changed(2, 0), Fault::HeapShape);
    all_refuse(&changed(3, Heap::PROPERTIES), Fault::TableShape);
    all_refuse(&changed(4, 0x1F), Fault::HeapItem);
    let record = of(&placed).heap().item(ItemId(placed.user_root)).unwrap();
    let at = record.as_ptr() as usize - placed.block.as_ptr() as usize;
    all_refuse(&changed(at, 0), Fault::TableShape);
    all_refuse(&changed(at + 1, record[1] + 1), Fault::TableShape);
    let mut columns = Table::new(b"").columns();
    assert!(columns.next().is_some_and(|column| column.is_err()));
    assert!(columns.next().is_none() && columns.next().is_none());
}

/// The first cell of a row that names an item is given the number of one that there is not.
#[test]
fn a_refused_cell_stands_in_its_place_of_the_row() {
    let mut met = 0;
    for placed in tables() {
        let model::Rows::Item(rows) = placed.table.rows else {
            continue;
        };
        let is_item = |cell: &model::Cell| matches!(cell, model::Cell::Item(_));
        let Some(index) = placed
            .cells
            .first()
            .and_then(|row| row.iter().position(is_item))
        else {
            continue;
        };
        let rows = of(&placed).heap().item(ItemId(rows)).unwrap();
        let start = rows.as_ptr() as usize - placed.block.as_ptr() as usize;
        let column = placed.columns[index];
        let mut block = placed.block.clone();
        let at = start + usize::from(column.offset);
        block[at..at + 4].copy_from_slice(&0xFFE0_u32.to_le_bytes());
        let table = Table::new(&block);
        let refused = table.cell(0, Tag(column.tag)).unwrap_err();
        assert_eq!(refused.fault, Fault::HeapItem);
        let mut wanted: Vec<_> = placed.cells[0]
            .iter()
            .map(|built| Ok(cell(*built)))
            .collect();
        wanted[index] = Err(refused);
        assert_eq!(table.row(0), Ok(Some(wanted)));
        met += 1;
    }
    assert!(met > 10, "{met}");
}

#[test]
fn tags_are_an_id_and_a_type() {
    assert_eq!(Tag::ROW_ID, Tag(0x67F2_0003));
    assert_eq!(Tag::new(0xFFFF, 0x101F), Tag(0xFFFF_101F));
    assert_eq!((NAME.id(), NAME.type_code()), (0x3001, 0x1F));
    assert_eq!(format!("{:#010x}", Tag(0x0017_0003)), "0x00170003");
}
