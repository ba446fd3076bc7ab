//! A row of a table in one call: what stands in each place, and what is left alone.

use rekwonuda_sys::{
    cell, column, count_rows, find_row, find_row32, read_row, table, CellAnswer, CellsAnswer,
    MOST_COLUMNS,
};

/// What stands in an area before a call.
const BEFORE: u64 = 0xA5A5_A5A5_A5A5_A5A5;

/// A row has 9 bytes: a number, a reference, and the existence byte.
const ROW: usize = 9;
const ID: u32 = 0x67F2_0003;
const NAME: u32 = 0x3001_001F;

/// Where the table record names the rows.
const ROWS: usize = 12 + 14;

/// Where the record of the row index has its entry size.
const ENTRY_SIZE: usize = 12 + 38 + 2;

/// A heap of three items with a table of two columns: its record, its row index, whose root is 0, and
/// three rows with one byte left over. The reference is empty, then names an item that there is not,
/// then is missing.
fn block() -> Vec<u8> {
    let record = [
        &[
            0x7C, 2, 8, 0, 8, 0, 8, 0, 9, 0, 0x40, 0, 0, 0, 0x60, 0, 0, 0,
        ][..],
        &[0; 4],
        &[0x1F, 0, 0x01, 0x30, 4, 0, 4, 1],
        &[0x03, 0, 0xF2, 0x67, 0, 0, 4, 0],
    ];
    let index = [0xB5, 4, 4, 0, 0, 0, 0, 0];
    let rows = [
        &[7, 0, 0, 0, 0, 0, 0, 0, 0xC0][..],
        &[8, 0, 0, 0, 0x80, 0, 0, 0, 0xC0],
        &[9, 0, 0, 0, 1, 1, 1, 1, 0x80],
        &[0xFF],
    ];
    let items = [record.concat(), index.to_vec(), rows.concat()];
    let mut block = vec![0, 0, 0xEC, 0x7C, 0x20, 0, 0, 0, 0, 0, 0, 0];
    let mut map = vec![3, 0, 0, 0, 12, 0];
    for item in items {
        block.extend(item);
        map.extend((block.len() as u16).to_le_bytes());
    }
    let end = (block.len() as u16).to_le_bytes();
    block[..2].copy_from_slice(&end);
    [block, map].concat()
}

fn short(more: u64) -> CellsAnswer {
    CellsAnswer::from_fields([17, 0, more, 0, 0])
}

#[test]
fn each_place_is_the_answer_to_its_cell() {
    let block = block();
    for row in 0..3 {
        let mut area = [BEFORE; 2 * CellAnswer::WORDS + 5];
        let answer = read_row(&block, &[], row, &mut area);
        assert_eq!(answer.fields(), [0, 0, 0, 1, 2]);
        let places = area.chunks_exact(CellAnswer::WORDS);
        for (place, tag) in places.zip([NAME, ID]) {
            assert_eq!(place, cell(&block, &[], row, tag).fields(), "{row}");
        }
        assert_eq!(area[2 * CellAnswer::WORDS..], [BEFORE; 5]);
        assert_eq!(area[11], u64::from(7 + row));
    }
    let kinds = [0, 1, 2].map(|row| cell(&block, &[], row, NAME).fields());
    let wanted = [[0, 0, 0, 1, 1, 0], [19, 0, 0, 0, 0, 0], [0, 0, 0, 1, 4, 0]];
    assert_eq!(kinds, wanted);
}

#[test]
fn a_row_that_is_refused_or_absent_leaves_the_area_as_it_was() {
    let block = block();
    let mut area = [BEFORE; MOST_COLUMNS];
    assert_eq!(read_row(&block, &[], 0, &mut area[..11]), short(2));
    assert_eq!(read_row(&block, &[], 0, &mut []), short(2));
    assert_eq!(read_row(&block, &[], 3, &mut []).fields(), [0; 5]);
    assert_eq!(read_row(&block, &[], 3, &mut area).fields(), [0; 5]);
    assert_eq!(read_row(&block[1..], &[], 0, &mut area).refusal, 18);
    assert!(area.iter().all(|word| *word == BEFORE));
}

#[test]
fn the_other_calls_answer_by_the_record() {
    let block = block();
    assert_eq!(table(&block).fields(), [0, 0, 0, 2, 9, 8, 2, 0x60]);
    let name = [0, 0, 0, 1, u64::from(NAME), 4, 4, 1];
    assert_eq!(column(&block, 0).fields(), name);
    assert_eq!(column(&block, 2).fields(), [0; 8]);
    assert_eq!(count_rows(&block, &[]).fields(), [0, 0, 0, 3]);
    assert_eq!(cell(&block, &[], 0, ID + 1).fields(), [0; 6]);
    assert_eq!(find_row(&block, 7).fields(), [0; 5]);
}

#[test]
fn a_row_index_is_of_one_edition() {
    let mut block = block();
    assert_eq!(find_row(&block, 7).refusal, 0);
    assert_eq!(find_row32(&block, 7).fields(), [23, 0, 0, 0, 0]);
    block[ENTRY_SIZE] = 2;
    assert_eq!(find_row(&block, 7).fields(), [23, 0, 0, 0, 0]);
    assert_eq!(find_row32(&block, 7).fields(), [0; 5]);
}

#[test]
fn rows_of_a_subnode_are_those_that_are_given() {
    let mut block = block();
    let rows = [5, 0, 0, 0, 0x3F, 0x81, 0, 0, 0xC0].repeat(2);
    block[ROWS] = 0x5F;
    assert_eq!(table(&block).fields()[6..], [3, 0x5F]);
    assert_eq!(count_rows(&block, &rows).rows, 2);
    assert_eq!(count_rows(&block, &rows[..2 * ROW - 1]).rows, 1);
    assert_eq!(count_rows(&block, &[]).rows, 0);
    let subnode = [0, 0, 0, 1, 3, 0x813F];
    assert_eq!(cell(&block, &rows, 1, NAME).fields(), subnode);
    assert_eq!(count_rows(&block, &[0; 8_180]).rows, 8_180 / 9);
    assert_eq!(count_rows(&block, &[0; 8_181]).refusal, 23);
    block[ROWS] = 0x60;
    assert_eq!(count_rows(&block, &[0; 8_181]).rows, 3);
}
