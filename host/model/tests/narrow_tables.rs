//! Tables of 32-bit files, whose row index has numbers of two bytes; and heaps and rows of the most bytes,
//! which no edition changes.

use model::build::heaps::context_of_length;
use model::build::tables::{
    place_table_of, usual_layout, worked_example, GivenTable, PlacedTable, RowsPlace,
};
use model::edition::Edition;
use model::random::Random;
use model::{
    cell, column, count_rows, find_property, find_row, find_row32, item, read_row, table,
    test_heap, test_item, Answer, Refusal,
};

const WRONG: Answer<Option<u32>> = Err(Refusal {
    number: 23,
    place: 0,
    more: 0,
});

/// Rows by their ids, in a table without columns of its own.
fn indexed(edition: Edition, index_levels: u8, rows: &[(u32, u32)]) -> PlacedTable {
    let given = GivenTable {
        layout: usual_layout(&[]),
        rows: Vec::new(),
        rows_place: RowsPlace::None,
        left_over: Vec::new(),
        row_index: rows.iter().copied().collect(),
        index_levels,
        tidy: true,
    };
    place_table_of(edition, &mut Random::new(u64::from(index_levels)), &given)
}

const ROWS: [(u32, u32); 5] = [
    (0, 7),
    (0x24, 0xFFFF),
    (0x8022, 0),
    (0x20_0024, 0x1234),
    (u32::MAX, 0x100),
];

#[test]
fn rows_of_two_bytes() {
    for levels in 0..=3 {
        let [wide, narrow] = Edition::BOTH.map(|edition| indexed(edition, levels, &ROWS).block);
        for (id, row) in ROWS {
            assert_eq!(find_row32(&narrow, id), Ok(Some(row)));
            assert_eq!(find_row(&wide, id), Ok(Some(row)));
            assert_eq!(find_row(&narrow, id), WRONG);
            assert_eq!(find_row32(&wide, id), WRONG);
        }
        for id in [1, 0x23, 0x25, 0x8021, 0x20_0025, u32::MAX - 1] {
            assert_eq!(find_row32(&narrow, id), Ok(None));
        }
    }
}

/// The bytes of a row index by themselves: a record of B5, 4, 2, and a leaf of six bytes a row.
#[test]
fn bytes_of_a_row_index() {
    let placed = indexed(Edition::Bits32, 0, &ROWS);
    let bytes = |number| {
        let item = item(&placed.block, number).expect("an item");
        &placed.block[item.start..item.start + item.length]
    };
    let record = bytes(placed.row_index_item);
    assert_eq!(record[..4], [0xB5, 4, 2, 0]);
    let root = u32::from_le_bytes([record[4], record[5], record[6], record[7]]);
    let leaf = bytes(root);
    assert_eq!(leaf.len(), 6 * ROWS.len());
    assert_eq!(leaf[6..12], [0x24, 0, 0, 0, 0xFF, 0xFF]);
    assert_eq!(leaf[12..18], [0x22, 0x80, 0, 0, 0, 0]);
}

/// An index without rows is one in either edition, by its record.
#[test]
fn no_rows() {
    let [wide, narrow] = Edition::BOTH.map(|edition| indexed(edition, 0, &[]).block);
    assert_eq!(find_row32(&narrow, 5), Ok(None));
    assert_eq!(find_row(&narrow, 5), WRONG);
    assert_eq!(find_row32(&wide, 5), WRONG);
}

/// No entry size but two will do, nor any key size but four.
#[test]
fn sizes_in_the_record() {
    let placed = indexed(Edition::Bits32, 1, &ROWS);
    let record = item(&placed.block, placed.row_index_item).expect("an item");
    for byte in 0..=255 {
        for (at, right) in [(1, 4), (2, 2)] {
            let mut block = placed.block.clone();
            block[record.start + at] = byte;
            let found = find_row32(&block, 0x8022);
            if byte == right {
                assert_eq!(found, Ok(Some(0)));
            } else {
                assert_eq!(found, WRONG);
            }
        }
    }
}

/// The table's shape comes before its row index in both calls.
#[test]
fn shape_first() {
    let mut block = indexed(Edition::Bits32, 0, &ROWS).block;
    block[3] = 0xBC;
    assert_eq!(
        [find_row, find_row32].map(|find| find(&block, 0)),
        [WRONG; 2]
    );
    block[2] = 0;
    let no_heap = Err(Refusal::new(18, 0));
    assert_eq!(
        [find_row, find_row32].map(|find| find(&block, 0)),
        [no_heap; 2]
    );
}

#[test]
fn lengths_of_a_heap() {
    let mut random = Random::new(1);
    for length in 8170..=8190 {
        let heap = context_of_length(&mut random, length);
        assert_eq!(heap.block.len(), length);
        let expected = if length <= 8180 {
            Ok(())
        } else {
            Err(Refusal::new(18, 0))
        };
        assert_eq!(test_heap(&heap.block), expected);
        assert_eq!(test_item(&heap.block, 0x20), expected);
        let last = (heap.items.len() as u32) << 5;
        let items: Answer<usize> = item(&heap.block, last).map(|item| item.length);
        let whole = expected.map(|()| heap.items[heap.items.len() - 1].len());
        assert_eq!(items, whole);
        for (&id, property) in &heap.properties {
            let found = find_property(&heap.block, id);
            assert_eq!(found, expected.map(|()| Some(*property)));
        }
    }
}

/// A table in a block of so many bytes, with zeros behind its map.
fn longer(length: usize) -> Vec<u8> {
    let mut block = worked_example().block;
    block.resize(length, 0);
    block
}

#[test]
fn lengths_of_a_table() {
    let refused = Refusal::new(18, 0);
    assert!(table(&longer(8180)).is_ok());
    assert_eq!(find_row(&longer(8180), 0x8022), Ok(Some(0)));
    let block = longer(8181);
    assert_eq!(table(&block), Err(refused));
    assert_eq!(column(&block, 0), Err(refused));
    assert_eq!(count_rows(&block, &[]), Err(refused));
    assert_eq!(cell(&block, &[], 0, 0), Err(refused));
    assert_eq!(find_row(&block, 0), Err(refused));
    assert_eq!(find_row32(&block, 0), Err(refused));
    assert_eq!(read_row(&block, &[], 0, &mut []), Err(refused));
}
