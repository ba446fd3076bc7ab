//! Tables that the builder makes, and that of 003, 3.11, are read back cell by cell; the order of the
//! tests; what short areas and odd numbers lead to.

use model::build::tables::{
    any_table_of, place_table, real_size_of, usual_layout, worked_example, GivenCell, GivenTable,
    Layout, PlacedTable, RowsPlace, ROW_ID,
};
use model::edition::Edition;
use model::random::Random;
use model::table::{in_words, is_reference, WORDS};
use model::{
    cell, column, count_rows, find_property, find_row, find_row32, item, read_row, table, Answer,
    Cell, Column, Refusal, Rows, Table,
};
use std::collections::BTreeSet;
use std::fs;

fn assert_read_back(placed: &PlacedTable) {
    let PlacedTable { block, rows, .. } = placed;
    assert_eq!(table(block), Ok(placed.table));
    for (at, expected) in placed.columns.iter().enumerate() {
        assert_eq!(column(block, at as u32), Ok(Some(*expected)));
    }
    for past in [placed.columns.len() as u32, 256, u32::MAX] {
        assert_eq!(column(block, past), Ok(None));
    }
    assert_eq!(count_rows(block, rows), Ok(placed.cells.len()));
    for row in 0..placed.cells.len() {
        assert_row(placed, row);
    }
    let past = placed.cells.len() as u32;
    for row in [past, u32::MAX] {
        assert_eq!(read_row(block, rows, row, &mut []), Ok(None));
        let tag = placed.columns.first().map_or(0, |column| column.tag);
        assert_eq!(cell(block, rows, row, tag), Ok(None));
    }
    assert_row_index(placed);
}

/// Cell by cell and in one call.
fn assert_row(placed: &PlacedTable, row: usize) {
    let PlacedTable { block, rows, .. } = placed;
    let cells = &placed.cells[row];
    let mut area = vec![7; WORDS * cells.len() + 5];
    let read = read_row(block, rows, row as u32, &mut area);
    assert_eq!(read, Ok(Some(cells.len())));
    for ((column, expected), place) in placed.columns.iter().zip(cells).zip(area.chunks(WORDS)) {
        let answer = cell(block, rows, row as u32, column.tag);
        assert_eq!(answer, Ok(Some(*expected)));
        assert_eq!(place, in_words(answer));
    }
    assert_eq!(area[WORDS * cells.len()..], [7; 5]);
    let tags: BTreeSet<_> = placed.columns.iter().map(|column| column.tag).collect();
    for near in tags.iter().map(|tag| tag ^ 1).chain([0]) {
        if !tags.contains(&near) {
            assert_eq!(cell(block, rows, row as u32, near), Ok(None));
        }
    }
}

fn assert_row_index(placed: &PlacedTable) {
    let ids = placed.row_index.keys().copied();
    let near = ids.flat_map(|id| [id, id.wrapping_add(1), id.wrapping_sub(1)]);
    for id in near.chain([0, u32::MAX]) {
        let expected = placed.row_index.get(&id).copied();
        let found = match placed.edition {
            Edition::Bits64 => find_row(&placed.block, id),
            Edition::Bits32 => find_row32(&placed.block, id),
        };
        assert_eq!(found, Ok(expected), "id {id:x}");
    }
}

/// What came up among some tables.
#[derive(Default)]
struct Seen {
    columns: BTreeSet<usize>,
    kinds: BTreeSet<u64>,
    rows: BTreeSet<u8>,
    levels: BTreeSet<u8>,
    unsorted: usize,
    long_rows: usize,
}

impl Seen {
    fn note(&mut self, placed: &PlacedTable) {
        self.columns.insert(placed.columns.len());
        let cells = placed.cells.iter().flatten();
        let words = cells.map(|cell| in_words(Ok(Some(*cell))));
        self.kinds.extend(words.map(|words| words[4]));
        self.rows.insert(match placed.table.rows {
            Rows::None => 1,
            Rows::Item(_) => 2,
            Rows::Subnode(_) => 3,
        });
        self.levels
            .extend(placed.tree.iter().map(|item| item.level));
        self.unsorted += usize::from(!placed.columns.is_sorted_by_key(|column| column.tag));
        self.long_rows += usize::from(placed.table.existence > 2048);
    }
}

#[test]
fn any_tables() {
    let mut random = Random::new(5);
    let mut seen = Seen::default();
    for at in 0..1200 {
        let placed = any_table_of(Edition::BOTH[at % 2], &mut random);
        assert!(placed.block.len() <= 8180 && placed.rows.len() <= 8180);
        assert_read_back(&placed);
        seen.note(&placed);
    }
    assert!(seen.columns.contains(&0) && seen.columns.contains(&255));
    assert_eq!(seen.kinds, [0, 1, 2, 3, 4].into());
    assert_eq!(seen.rows, [1, 2, 3].into());
    assert_eq!(seen.levels, [0, 1, 2, 3].into());
    assert!(seen.unsorted > 50 && seen.long_rows > 5);
}

#[test]
fn tables_of_real_size() {
    for placed in Edition::BOTH.map(real_size_of) {
        assert_read_back(&placed);
        assert_eq!((placed.columns.len(), placed.cells.len()), (30, 100));
        assert_eq!(placed.table.row_size, 81);
        assert!(matches!(placed.table.rows, Rows::Subnode(0x3F)));
        assert!(placed.block.len() <= 8176 && placed.rows.len() == 8100);
        let cells = placed.cells[99].iter();
        let items = cells.filter(|cell| matches!(cell, Cell::Item(_)));
        assert_eq!(items.count(), 2);
    }
}

/// The bytes that 003, 3.11 prints.
fn printed() -> Vec<u8> {
    let path = "/../../crates/vectors/data/3.11_tc.hex";
    let path = format!("{}{path}", env!("CARGO_MANIFEST_DIR"));
    let text = fs::read_to_string(path).expect("the worked example");
    let bytes = text.split_whitespace();
    bytes
        .map(|byte| u8::from_str_radix(byte, 16).expect("two digits"))
        .collect()
}

#[test]
fn the_builder_makes_the_worked_example() {
    assert_eq!(worked_example().block, printed());
}

/// Tag, offset, width and bit, as 003, 3.11 lists them.
const PRINTED_COLUMNS: [(u32, u16, u8, u8); 13] = [
    (0x0E30_0102, 0x14, 4, 6),
    (0x0E33_0014, 0x18, 8, 7),
    (0x0E34_0102, 0x20, 4, 8),
    (0x0E38_0003, 0x24, 4, 9),
    (0x3001_001F, 0x08, 4, 2),
    (0x3602_0003, 0x0C, 4, 3),
    (0x3603_0003, 0x10, 4, 4),
    (0x360A_000B, 0x34, 1, 5),
    (0x3613_001F, 0x28, 4, 10),
    (0x6635_0003, 0x2C, 4, 11),
    (0x6636_0003, 0x30, 4, 12),
    (0x67F2_0003, 0x00, 4, 0),
    (0x67F3_0003, 0x04, 4, 1),
];

#[test]
fn columns_of_the_worked_example() {
    let block = printed();
    let expected = Table {
        columns: 13,
        row_size: 55,
        existence: 53,
        rows: Rows::Item(0x80),
    };
    assert_eq!(table(&block), Ok(expected));
    for (index, (tag, offset, width, bit)) in PRINTED_COLUMNS.into_iter().enumerate() {
        let expected = Column {
            tag,
            offset,
            width,
            bit,
        };
        assert_eq!(column(&block, index as u32), Ok(Some(expected)));
    }
    assert_eq!(column(&block, 13), Ok(None));
}

/// Row id, version, item and text of the name, subfolders.
const PRINTED_ROWS: [(u64, u64, u32, &str, u64); 3] = [
    (0x8022, 0x0E, 0xA0, "Top of Personal Folders", 1),
    (0x8042, 0x06, 0xC0, "Search Root", 0),
    (0x2223, 0x0B, 0xE0, "SPAM Search Folder 2", 0),
];

#[test]
fn rows_of_the_worked_example() {
    let block = printed();
    assert_eq!(count_rows(&block, &[]), Ok(3));
    for (row, (id, version, name, text, subfolders)) in (0..).zip(PRINTED_ROWS) {
        let cell = |tag| cell(&block, &[], row, tag);
        assert_eq!(cell(0x67F2_0003), Ok(Some(Cell::Number(id))));
        assert_eq!(cell(0x67F3_0003), Ok(Some(Cell::Number(version))));
        assert_eq!(cell(0x3001_001F), Ok(Some(Cell::Item(name))));
        assert_eq!(cell(0x3602_0003), Ok(Some(Cell::Number(0))));
        assert_eq!(cell(0x360A_000B), Ok(Some(Cell::Number(subfolders))));
        // 3.12 prints a value of 0, but the row's existence bits are FC 00.
        assert_eq!(cell(0x0E33_0014), Ok(Some(Cell::Missing)));
        assert_eq!(cell(0x0E30_0102), Ok(Some(Cell::Missing)));
        // 3.12 prints these types by mistake.
        assert_eq!(cell(0x0E30_0003), Ok(None));
        assert_eq!(cell(0x3603_000B), Ok(None));
        let name = item(&block, name).expect("the name");
        let name = &block[name.start..name.start + name.length];
        let utf16: Vec<_> = text.encode_utf16().flat_map(u16::to_le_bytes).collect();
        assert_eq!(name, utf16);
    }
    assert_eq!(cell(&block, &[], 3, ROW_ID), Ok(None));
}

#[test]
fn row_index_of_the_worked_example() {
    let block = printed();
    for (id, row) in [(0x2223, 2), (0x8022, 0), (0x8042, 1)] {
        assert_eq!(find_row(&block, id), Ok(Some(row)));
    }
    for id in [0, 0x2222, 0x2224, 0x8023, 0x8043, u32::MAX] {
        assert_eq!(find_row(&block, id), Ok(None));
    }
    assert_eq!(find_property(&block, 0x3001), Err(Refusal::new(20, 0)));
}

/// One number and one reference for each sort of type.
#[test]
fn references() {
    for kind in [
        0x1F, 0x1E, 0x102, 0x0D, 0x48, 0x1000, 0x1003, 0x101F, 0xFFFF,
    ] {
        assert!(is_reference(kind), "{kind:x}");
    }
    for kind in [
        0, 2, 3, 5, 0xB, 0x14, 0x40, 0x20, 0x47, 0x101, 0x0FFF, 0x2000,
    ] {
        assert!(!is_reference(kind), "{kind:x}");
    }
}

/// A number of each width and a reference, side by side, one row; the row's rest is `FF`.
fn one_of_each() -> Vec<u8> {
    let widths = [(8, 0x14), (4, 3), (2, 2), (1, 0xB), (4, 0x1F)];
    let mut columns = Vec::new();
    let mut offset = 0;
    for (bit, (width, kind)) in (0..).zip(widths) {
        columns.push(Column {
            tag: u32::from(bit) << 16 | kind,
            offset,
            width,
            bit,
        });
        offset += u16::from(width);
    }
    let given = GivenTable {
        layout: Layout {
            columns,
            ends: [offset, offset, offset, offset + 1],
        },
        rows: Vec::new(),
        rows_place: RowsPlace::Subnode(0x21),
        left_over: Vec::new(),
        row_index: [].into(),
        index_levels: 0,
        tidy: true,
    };
    place_table(&mut Random::new(0), &given).block
}

#[test]
fn numbers_of_each_width() {
    let block = one_of_each();
    let mut row: Vec<u8> = (1..=19).collect();
    row.push(0xFF);
    let expected = [
        Cell::Number(0x0807_0605_0403_0201),
        Cell::Number(0x0C0B_0A09),
        Cell::Number(0x0E0D),
        Cell::Number(0x0F),
        Cell::Subnode(0x1312_1110),
    ];
    for (at, expected) in (0..).zip(expected) {
        let tag = column(&block, at)
            .expect("a table")
            .expect("it is there")
            .tag;
        assert_eq!(cell(&block, &row, 0, tag), Ok(Some(expected)));
        // Its bit alone makes it there, bit 0 being the highest.
        row[19] = 0x80 >> at;
        assert_eq!(cell(&block, &row, 0, tag), Ok(Some(expected)));
        row[19] = !row[19];
        assert_eq!(cell(&block, &row, 0, tag), Ok(Some(Cell::Missing)));
        row[19] = 0xFF;
    }
}

#[test]
fn references_of_each_kind() {
    let block = one_of_each();
    let mut row = vec![0xFF; 20];
    let mut value = |number: u32| {
        row[15..19].copy_from_slice(&number.to_le_bytes());
        cell(&block, &row, 0, 0x0004_001F)
    };
    assert_eq!(value(0), Ok(Some(Cell::Empty)));
    assert_eq!(value(0x40), Ok(Some(Cell::Item(0x40))));
    assert_eq!(value(0x60), Err(Refusal::new(19, 0)));
    assert_eq!(value(0x1_0040), Err(Refusal::new(19, 0)));
    for subnode in [1, 0x1F, 0x41, 0x813F, u32::MAX] {
        assert_eq!(value(subnode), Ok(Some(Cell::Subnode(subnode))));
    }
}

#[test]
fn whole_rows_of_a_block() {
    let block = one_of_each();
    for (length, rows) in [(0, 0), (19, 0), (20, 1), (39, 1), (40, 2), (8180, 409)] {
        assert_eq!(count_rows(&block, &vec![0; length]), Ok(rows));
    }
    assert_eq!(count_rows(&block, &[0; 8181]), Err(Refusal::new(23, 0)));
    assert_eq!(cell(&block, &[0; 8181], 0, 0), Err(Refusal::new(23, 0)));
    // Looked at only where the rows lie in a subnode.
    assert_eq!(count_rows(&printed(), &[0; 8181]), Ok(3));
    assert_eq!(find_row(&block, 1), Ok(None));
}

fn short(needed: usize) -> Answer<Option<usize>> {
    Err(Refusal::short(needed))
}

#[test]
fn areas_of_a_row() {
    let block = printed();
    let fresh = vec![7; 13 * WORDS + 5];
    for words in [0, 11, 13 * WORDS - 1] {
        let mut area = fresh[..words].to_vec();
        assert_eq!(read_row(&block, &[], 2, &mut area), short(13));
        assert_eq!(area, fresh[..words]);
        assert_eq!(read_row(&block, &[], 3, &mut area), Ok(None));
        assert_eq!(area, fresh[..words]);
    }
    for words in [13 * WORDS, 13 * WORDS + 5] {
        let mut area = fresh[..words].to_vec();
        assert_eq!(read_row(&block, &[], 2, &mut area), Ok(Some(13)));
        assert_eq!(area[4 * WORDS..5 * WORDS], [0, 0, 0, 1, 2, 0xE0]);
        assert_eq!(area[0..WORDS], [0, 0, 0, 1, 4, 0]);
        assert_eq!(area[11 * WORDS..12 * WORDS], [0, 0, 0, 1, 0, 0x2223]);
        assert_eq!(area[13 * WORDS..], fresh[13 * WORDS..words]);
    }
}

/// A table without columns has rows all the same.
#[test]
fn no_columns() {
    let given = GivenTable {
        layout: Layout {
            columns: Vec::new(),
            ends: [0, 0, 0, 1],
        },
        rows: vec![Vec::new(); 4],
        rows_place: RowsPlace::Item,
        left_over: Vec::new(),
        row_index: [(7, 3)].into(),
        index_levels: 3,
        tidy: true,
    };
    let placed = place_table(&mut Random::new(0), &given);
    assert_read_back(&placed);
    assert_eq!(count_rows(&placed.block, &[]), Ok(4));
    assert_eq!(read_row(&placed.block, &[], 3, &mut []), Ok(Some(0)));
    assert_eq!(read_row(&placed.block, &[], 4, &mut []), Ok(None));
    assert_eq!(find_row(&placed.block, 7), Ok(Some(3)));
}

/// Where the worked example has the client kind, the user root, the record, its first column, and the
/// record of the row index.
const KIND: usize = 3;
const USER_ROOT: usize = 4;
const RECORD: usize = 0x14;
const ROW_INDEX: usize = RECORD + 10;
const ROWS: usize = RECORD + 14;
const COLUMN: usize = RECORD + 22;
const INDEX_RECORD: usize = 0x0C;

/// What the six calls answer after those bytes were put at those places; 0 for an answer.
fn refusals(changes: &[(usize, u8)]) -> [u64; 6] {
    let mut block = printed();
    for &(at, byte) in changes {
        block[at] = byte;
    }
    let number = |refusal: Refusal| refusal.number;
    [
        table(&block).err().map_or(0, number),
        column(&block, 0).err().map_or(0, number),
        count_rows(&block, &[]).err().map_or(0, number),
        cell(&block, &[], 0, 0x3001_001F).err().map_or(0, number),
        read_row(&block, &[], 0, &mut []).err().map_or(0, number),
        find_row(&block, 0x8022).err().map_or(0, number),
    ]
}

#[test]
fn order_of_the_tests() {
    // Item numbers with a low bit set, and a column's width that nothing allows.
    let (kind, root, mark) = ((KIND, 0xBC), (USER_ROOT, 0x41), (RECORD, 0x7D));
    let (width, index) = ((COLUMN + 6, 3), (ROW_INDEX, 0x21));
    let (rows, index_mark) = ((ROWS + 1, 1), (INDEX_RECORD, 0xB4));
    assert_eq!(refusals(&[]), [0, 0, 0, 0, 17, 0]);
    assert_eq!(refusals(&[(2, 0xED), kind, root]), [18; 6]);
    assert_eq!(refusals(&[kind, root]), [23; 6]);
    assert_eq!(refusals(&[root, mark, width]), [19; 6]);
    assert_eq!(refusals(&[mark, rows, index]), [23; 6]);
    assert_eq!(refusals(&[width, rows, index]), [23; 6]);
    assert_eq!(refusals(&[rows]), [0, 0, 19, 19, 19, 0]);
    assert_eq!(refusals(&[index, index_mark]), [0, 0, 0, 0, 17, 19]);
    assert_eq!(refusals(&[index_mark]), [0, 0, 0, 0, 17, 23]);
    assert_eq!(refusals(&[rows, index]), [0, 0, 19, 19, 19, 19]);
}

/// Fields that nothing tests: the first two ends, and the number behind the rows.
#[test]
fn untested_fields() {
    let places = [2, 3, 4, 5, 18, 19, 20, 21].map(|at| (RECORD + at, 0xFF));
    assert_eq!(refusals(&places), [0, 0, 0, 0, 17, 0]);
}

/// The rows' item is tested before the row's number, and a wrong value only in the cell asked for.
#[test]
fn a_wrong_rows_item() {
    let mut block = printed();
    block[ROWS + 1] = 1;
    assert_eq!(cell(&block, &[], 9, 0), Err(Refusal::new(19, 0)));
    assert_eq!(read_row(&block, &[], 9, &mut []), Err(Refusal::new(19, 0)));
    // As a subnode's number it names the caller's block.
    block[ROWS] = 0x81;
    assert_eq!(count_rows(&block, &[0; 110]), Ok(2));
    block[ROWS..ROWS + 2].fill(0);
    assert_eq!(table(&block).map(|table| table.rows), Ok(Rows::None));
    assert_eq!(count_rows(&block, &[0; 110]), Ok(0));
}

#[test]
fn equal_ids_under_different_types() {
    let layout = usual_layout(&[0x3001_001F, 0x3001_001E, 0x3001_0003]);
    let row = layout.columns.iter().map(|_| GivenCell::Missing);
    let given = GivenTable {
        rows: vec![row.collect()],
        layout,
        rows_place: RowsPlace::Item,
        left_over: vec![0; 20],
        row_index: [].into(),
        index_levels: 0,
        tidy: true,
    };
    assert_read_back(&place_table(&mut Random::new(0), &given));
}

/// A few columns anywhere in a short row, so that many tables break a rule.
fn any_columns(random: &mut Random) -> Layout {
    let existence = random.below(160) as u16;
    let row_size = existence + random.one_of([0, 1, 4, 4, 4, 4]);
    let column = |random: &mut Random| Column {
        tag: (random.below(12) << 16) as u32 | random.one_of([3, 0xB, 0x1F, 0x1003]),
        offset: random.below(usize::from(existence) + 1) as u16,
        width: random.one_of([1, 2, 4, 4, 4, 4, 4, 4, 8, 3]),
        bit: random.below(33) as u8,
    };
    Layout {
        columns: (0..random.below(7)).map(|_| column(random)).collect(),
        ends: [0, 0, existence, row_size],
    }
}

/// The rules, said of each column and of each two.
fn allowed(layout: &Layout) -> bool {
    let [_, _, existence, row_size] = layout.ends.map(u32::from);
    let bytes = |column: &Column| {
        let start = u32::from(column.offset);
        start..start + u32::from(column.width)
    };
    let alone = |column: &Column| {
        let reference = matches!(column.tag as u16, 0x1F | 0x1003);
        let width = [4].contains(&column.width) || !reference && [1, 2, 8].contains(&column.width);
        let bits = 8 * (row_size - existence);
        width && bytes(column).end <= existence && u32::from(column.bit) < bits
    };
    let apart = |one: &Column, other: &Column| {
        one.tag != other.tag
            && one.bit != other.bit
            && !bytes(one).any(|byte| bytes(other).contains(&byte))
    };
    let columns = &layout.columns;
    let mut pairs = (0..columns.len()).flat_map(|at| (0..at).map(move |before| (before, at)));
    row_size >= 1
        && columns.iter().all(alone)
        && pairs.all(|(one, other)| apart(&columns[one], &columns[other]))
}

#[test]
fn columns_by_pairs() {
    let mut random = Random::new(12);
    let mut seen = [0; 2];
    for _ in 0..40_000 {
        let layout = any_columns(&mut random);
        let allowed = allowed(&layout);
        let given = GivenTable {
            layout,
            rows: Vec::new(),
            rows_place: RowsPlace::None,
            left_over: Vec::new(),
            row_index: [].into(),
            index_levels: 0,
            tidy: true,
        };
        let placed = place_table(&mut random, &given);
        let refused = table(&placed.block).err();
        let expected = (!allowed).then_some(Refusal::new(23, 0));
        assert_eq!(refused, expected, "{:?}", given.layout);
        seen[usize::from(allowed && given.layout.columns.len() > 2)] += 1;
    }
    assert!(seen[1] > 1000, "{seen:?}");
}
