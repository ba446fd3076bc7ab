//! What the comparison has to meet in calls on tables, how an answer is told to be it, and which calls,
//! rows and areas are drawn.

use compare::ask::{ask, Ask, Call, Lent};
use compare::buffers::Buffers;
use compare::subject::subjects;
use compare::tables::draw::{id, index, row, rows, tag, Known};
use compare::tables::{Area, Content, Fault, Length, Met, Number, Tag};
use compare::tally::Tally;
use model::build::tables::{
    place_table_of, usual_layout, worked_example, GivenCell, GivenTable, PlacedTable, RowsPlace,
    ROW_ID, ROW_VERSION,
};
use model::edition::Edition;
use model::random::Random;
use std::collections::BTreeSet;

const NAME: u32 = 0x3001_001F;

#[test]
fn what_has_to_be_met() {
    let all: BTreeSet<_> = Met::all().collect();
    let refused = 7 * 5 + 2 + 3 + 4 + 2 * 6;
    let answered = 3 + 10 + 3 * 4 + 1 + 3 + 2 * 8 + 2 * (4 * 2 + 1);
    assert_eq!(all.len(), refused + answered + 5);
    assert_eq!(Met::all().count(), all.len());
    let words: BTreeSet<_> = all.iter().map(ToString::to_string).collect();
    assert_eq!(words.len(), all.len());
    assert!(words.iter().all(|words| words.len() < 40));
    assert_eq!(Tally::default().tables_not_reached().len(), all.len());
}

/// The faults of a call have all the numbers that the C face allows it, and no other.
#[test]
fn numbers_of_faults() {
    for call in [
        Call::Table,
        Call::Column,
        Call::CountRows,
        Call::Cell,
        Call::FindRow,
        Call::FindRow32,
        Call::ReadRow,
    ] {
        assert!(call.reads_table());
        let numbers: BTreeSet<_> = Fault::all_of(call).into_iter().map(Fault::number).collect();
        assert_eq!(numbers, call.refusals().into_iter().collect(), "{call:?}");
    }
}

/// The row's id and version and a name; two rows in a subnode, the second one's name an item that there
/// is not.
fn small() -> PlacedTable {
    small_of(Edition::Bits64)
}

fn small_of(edition: Edition) -> PlacedTable {
    let row = |name| vec![name, GivenCell::Number(0x8022), GivenCell::Missing];
    let given = GivenTable {
        layout: usual_layout(&[NAME]),
        rows: vec![row(GivenCell::Empty), row(GivenCell::Subnode(0x41))],
        rows_place: RowsPlace::Subnode(0x3F),
        left_over: Vec::new(),
        row_index: [(0x8022, 0)].into(),
        index_levels: 2,
        tidy: true,
    };
    let mut placed = place_table_of(edition, &mut Random::new(0), &given);
    let name = placed.columns[0].offset + placed.table.row_size;
    placed.rows[usize::from(name)..][..4].copy_from_slice(&0xFFE0_u32.to_le_bytes());
    placed
}

/// What a call on those bytes meets.
fn met(block: &[u8], rows: &[u8], question: Ask) -> Vec<Met> {
    let lent = Lent {
        bytes: block,
        nodes: &[],
        rows,
    };
    let mut buffers = Buffers::default();
    let answers = ask(&question, lent, lent, &mut buffers);
    assert_eq!(buffers.area().len(), question.words);
    Met::in_call(&question, lent, &answers.model, buffers.area())
}

#[test]
fn columns_and_records() {
    use Met::*;
    let PlacedTable { block, rows, .. } = &small();
    let met = |call, number| met(block, rows, Ask::new(call, number));
    assert_eq!(met(Call::Table, 0), [Rows(3)]);
    let column = |number| met(Call::Column, number);
    assert_eq!(column(0), [Asked(Call::Column, Number::First)]);
    assert_eq!(column(1), []);
    assert_eq!(column(2), [Asked(Call::Column, Number::Last)]);
    assert_eq!(column(3), [Asked(Call::Column, Number::Behind)]);
    assert_eq!(column(255), [Asked(Call::Column, Number::Byte)]);
    let highest = column(u64::from(u32::MAX));
    assert_eq!(highest, [Asked(Call::Column, Number::Highest)]);
}

/// What a count of rows in a block of that length meets.
fn counted(length: usize) -> Vec<Met> {
    let question = Ask::new(Call::CountRows, 0);
    met(&small().block, &vec![0; length], question)
}

#[test]
fn lengths_of_the_rows() {
    use Length as L;
    let told = |lengths: &[Length]| -> Vec<_> {
        let lengths = lengths.iter();
        lengths.map(|length| Met::RowsBlock(*length)).collect()
    };
    assert_eq!(small().table.row_size, 13);
    assert_eq!(counted(0), told(&[L::None]));
    assert_eq!(counted(1), []);
    assert_eq!(counted(12), told(&[L::OneUnderWholeRows]));
    assert_eq!(counted(26), told(&[L::WholeRows]));
    assert_eq!(counted(27), told(&[L::OneOverWholeRows]));
    assert_eq!(counted(8176), told(&[L::OneUnderWholeRows]));
    assert_eq!(counted(8177), told(&[L::WholeRows, L::Bytes(8177)]));
    assert_eq!(counted(8180), told(&[L::Bytes(8180)]));
    let too_long = [Met::Refused(Call::CountRows, Fault::RowsLength)];
    let (lengths, refused) = (told(&[L::Bytes(8181)]), &too_long[..]);
    assert_eq!(counted(8181), [&lengths[..], refused].concat());
    let lengths = told(&[L::Longer]);
    assert_eq!(counted(9000), [&lengths[..], refused].concat());
    // Rows on the heap: the block is not looked at.
    let question = Ask::new(Call::CountRows, 0);
    assert_eq!(met(&worked_example().block, &[0; 9000], question), []);
}

/// What a cell's answer tells beside the length of the rows' block.
fn cell(number: u64, tag: u32) -> Vec<Met> {
    let PlacedTable { block, rows, .. } = small();
    let question = Ask {
        tag,
        ..Ask::new(Call::Cell, number)
    };
    let mut met = met(&block, &rows, question);
    assert_eq!(met.remove(0), Met::RowsBlock(Length::WholeRows));
    met
}

#[test]
fn cells() {
    use Met::*;
    let asked = |number| Asked(Call::Cell, number);
    let there = |content| Cell(Call::Cell, content);
    let first = [asked(Number::First), there(Content::Empty)];
    assert_eq!(cell(0, NAME), first);
    let first = [asked(Number::First), there(Content::Number(4))];
    assert_eq!(cell(0, ROW_ID), first);
    let last = [asked(Number::Last), there(Content::Missing)];
    assert_eq!(cell(1, ROW_VERSION), last);
    assert_eq!(cell(1, NAME), [Refused(Call::Cell, Fault::Value)]);
    assert_eq!(cell(2, NAME), [asked(Number::Behind)]);
    assert_eq!(cell(2, 0), [asked(Number::Behind)]);
    assert_eq!(cell(255, NAME), []);
    for (tag, sort) in [
        (0, Tag::Zero),
        (NAME ^ 1, Tag::Near),
        (NAME ^ 3, Tag::Other),
    ] {
        assert_eq!(cell(0, tag), [asked(Number::First), UnknownTag(sort)]);
    }
}

/// What all cells of a row tell, in an area of so many words.
fn cells_of(row: u64, words: usize) -> Vec<Met> {
    let PlacedTable { block, rows, .. } = small();
    let question = Ask {
        words,
        ..Ask::new(Call::ReadRow, row)
    };
    met(&block, &rows, question)[1..].to_vec()
}

#[test]
fn rows_in_one_call() {
    use Met::*;
    let there = |content| Cell(Call::ReadRow, content);
    let last = Asked(Call::ReadRow, Number::Last);
    let behind = Asked(Call::ReadRow, Number::Behind);
    let short = Refused(Call::ReadRow, Fault::Area);
    assert_eq!(
        cells_of(1, 18),
        [
            Area(self::Area::Exact),
            last,
            Refused(Call::ReadRow, Fault::Value),
            there(Content::Number(4)),
            there(Content::Missing),
        ]
    );
    assert_eq!(cells_of(1, 24)[..2], [Area(self::Area::Longer), last]);
    assert_eq!(cells_of(1, 17), [Area(self::Area::WordShort), short]);
    assert_eq!(cells_of(1, 16), [short]);
    assert_eq!(cells_of(1, 0), [Area(self::Area::None), short]);
    assert_eq!(cells_of(2, 17), [AreaForAbsent, behind]);
    assert_eq!(cells_of(2, 18), [behind]);
}

#[test]
fn rows_of_the_index() {
    for (edition, call, other) in [
        (Edition::Bits64, Call::FindRow, Call::FindRow32),
        (Edition::Bits32, Call::FindRow32, Call::FindRow),
    ] {
        let mut small = small_of(edition);
        let find = |id| met(&small.block, &[], Ask::new(call, id));
        assert_eq!(find(0x8022), [Met::Index(call, 2, true)]);
        assert_eq!(find(0x8023), [Met::Index(call, 2, false)]);
        assert_eq!(find(0), [Met::Index(call, 2, false)]);
        let of_the_other = [Met::Refused(other, Fault::OtherIndex)];
        let question = Ask::new(other, 0x8022);
        assert_eq!(met(&small.block, &[], question), of_the_other);
        let index = model::item(&small.block, small.row_index_item).expect("it is there");
        small.block[index.start + 4..index.start + 8].fill(0);
        let question = Ask::new(call, 0x8022);
        assert_eq!(met(&small.block, &[], question), [Met::EmptyIndex(call)]);
    }
}

/// Where the worked example has what is spoilt: see 003, 3.11.
const RECORD: usize = 0x14;
const INDEX_RECORD: usize = 0x0C;

/// What each of six calls meets after one byte was changed; rows none for an answer.
fn faults(at: usize, byte: u8) -> [Option<Fault>; 6] {
    let mut block = worked_example().block;
    block[at] = byte;
    [
        Call::Table,
        Call::Column,
        Call::CountRows,
        Call::Cell,
        Call::ReadRow,
        Call::FindRow,
    ]
    .map(|call| {
        let question = Ask {
            tag: NAME,
            words: if call == Call::ReadRow { 78 } else { 0 },
            ..Ask::new(call, if call == Call::FindRow { 0x8022 } else { 0 })
        };
        let met = met(&block, &[], question);
        met.into_iter().find_map(|met| match met {
            Met::Refused(told, fault) if told == call => Some(fault),
            _ => None,
        })
    })
}

#[test]
fn faults_told_apart() {
    use Fault::*;
    let rows = |fault| [None, None, Some(fault), Some(fault), Some(fault), None];
    let index = |fault| [None, None, None, None, None, Some(fault)];
    assert_eq!(faults(2, 0xEC), [None; 6]);
    assert_eq!(faults(2, 0xED), [Some(Heap); 6]);
    assert_eq!(faults(3, 0xBC), [Some(ClientKind); 6]);
    assert_eq!(faults(4, 0x41), [Some(UserRoot); 6]);
    assert_eq!(faults(RECORD, 0xBC), [Some(Record); 6]);
    assert_eq!(faults(RECORD + 1, 12), [Some(Record); 6]);
    assert_eq!(faults(RECORD + 22 + 6, 3), [Some(Columns); 6]);
    assert_eq!(faults(RECORD + 15, 1), rows(RowsItem));
    assert_eq!(faults(RECORD + 11, 1), index(IndexItem));
    assert_eq!(faults(INDEX_RECORD, 0xB4), index(IndexRecord));
    assert_eq!(faults(INDEX_RECORD + 2, 6), index(IndexRecord));
    assert_eq!(faults(INDEX_RECORD + 2, 2), index(OtherIndex));
    assert_eq!(faults(INDEX_RECORD + 7, 1), index(IndexRoot));
    // The index levels of a leaf's tree: its row numbers are then taken for items.
    assert_eq!(faults(INDEX_RECORD + 3, 1), index(IndexChild));
    let leaf = model::item(&worked_example().block, 0x60)
        .expect("the leaf")
        .start;
    assert_eq!(faults(leaf + 9, 0), index(IndexRecords));
}

fn drawn<T: Ord>(draw: impl FnMut(&mut Random) -> T) -> BTreeSet<T> {
    let mut random = Random::new(1);
    let mut draw = draw;
    (0..4000).map(|_| draw(&mut random)).collect()
}

#[test]
fn numbers_that_are_drawn() {
    let drawn_rows = drawn(|random| row(5, 81, random));
    let far = [810, 53_024_288, 1 << 16, 1 << 31, u32::MAX];
    assert!(drawn_rows.is_superset(&(0..7).chain(far).collect()));
    let indexes = drawn(|random| index(5, random));
    assert!(indexes.is_superset(&[0, 4, 5, 255, 257, 1 << 29 | 3, u32::MAX].into()));
    let tags = drawn(|random| tag(&[NAME], random));
    assert!(tags.is_superset(&[0, NAME, NAME ^ 1, NAME ^ 1 << 31, 0x3001_0003].into()));
    let ids = drawn(|random| id(&[0x8022], random));
    assert!(ids.is_superset(&[0, 0x8021, 0x8022, 0x8023, u32::MAX].into()));
    assert_eq!(drawn(|random| row(0, 1, random)).first(), Some(&0));
}

#[test]
fn rows_that_are_drawn() {
    let known = Known {
        rows: vec![7; 30],
        ..Known::default()
    };
    let lengths = drawn(|random| {
        let rows = rows(&known, 10, random);
        let kept = rows.len().min(30);
        assert_eq!(rows[..kept], known.rows[..kept]);
        rows.len()
    });
    assert!(lengths.is_superset(&[0, 9, 10, 11, 29, 30, 31, 41].into()));
    assert!(lengths.is_superset(&(8177..=8181).collect()));
    assert!(lengths.range(8182..).count() > 100);
    let longest = drawn(|random| rows(&known, 60_000, random).len());
    assert_eq!(longest.last(), Some(&16_360));
}

/// Tables of all kinds come up among what is lent.
#[test]
fn subjects_with_tables() {
    let mut names = BTreeSet::new();
    for subject in (0..1500).flat_map(subjects) {
        if subject.calls.contains(&Call::ReadRow) {
            names.insert(subject.name.replace(", a byte more", ""));
        }
    }
    for damage in model::damage::table::TableDamage::all() {
        for side in ["Refused", "Allowed"] {
            let name = format!("table, {damage:?} {side}");
            assert!(names.contains(&name), "{name}");
        }
    }
    for name in [
        "table",
        "table, anywhere",
        "table, longer",
        "table, other items",
        "table, other record",
        "heap as a table",
        "random heap",
    ] {
        assert!(names.contains(name), "{name}");
    }
}
