//! Tables, sound, spoilt and random, and heaps that are none.

use super::{heap, heap_subject, random_heap, Subject};
use crate::ask::ON_TABLE;
use crate::tables::draw::Known;
use crate::tables::LENGTHS;
use model::build::tables::{any_table_of, real_size_of, worked_example, PlacedTable};
use model::damage::table::{spoil_anywhere, spoil_table, Side, SpoiltTable, TableDamage};
use model::random::Random;
use model::table::is_reference;
use model::Rows;

const DAMAGES: usize = 7;

/// The bytes of a table's record before its columns, and of one column; and where it names the rows.
const HEAD: usize = 22;
const COLUMN: usize = 8;
const ROWS: usize = 14;

pub fn tables(random: &mut Random) -> Vec<Subject> {
    let placed = table(random);
    let whole = Subject {
        asks: 24,
        ..as_built(&placed)
    };
    let mut subjects = vec![whole, other_items(&placed, random), longer(&placed, random)];
    for _ in 0..DAMAGES {
        subjects.push(spoilt(&placed, random));
    }
    for _ in 0..2 {
        subjects.push(other_record(&placed, random));
    }
    subjects.push(no_table(random));
    subjects
}

/// Those without rows are drawn less often.
fn table(random: &mut Random) -> PlacedTable {
    let edition = super::edition(random);
    match random.below(12) {
        0 => return real_size_of(edition),
        1 => return worked_example(),
        _ => {}
    }
    let placed = any_table_of(edition, random);
    if placed.cells.is_empty() && !random.one_in(4) {
        return any_table_of(edition, random);
    }
    placed
}

/// The table in a block of about the most bytes.
fn longer(placed: &PlacedTable, random: &mut Random) -> Subject {
    let mut subject = as_built(placed);
    let length = random.one_of(LENGTHS).max(placed.block.len());
    subject.bytes.resize(length, 0);
    subject.name += ", longer";
    subject
}

fn as_built(placed: &PlacedTable) -> Subject {
    let known = Known {
        rows: placed.rows.clone(),
        tags: placed.columns.iter().map(|column| column.tag).collect(),
        ids: placed.row_index.keys().copied().collect(),
    };
    subject("table".into(), placed, placed.block.clone(), known)
}

fn subject(name: String, placed: &PlacedTable, block: Vec<u8>, table: Known) -> Subject {
    Subject {
        items: (1..=placed.items.len() as u64).map(|at| at << 5).collect(),
        table,
        ..Subject::new(name, block, ON_TABLE)
    }
}

/// One damage or the like of it that is allowed, and now and then another byte changed.
fn spoilt(placed: &PlacedTable, random: &mut Random) -> Subject {
    let all: Vec<_> = TableDamage::all().collect();
    let damage = random.pick(&all).copied().unwrap_or(all[0]);
    let side = if random.one_in(3) {
        Side::Allowed
    } else {
        Side::Refused
    };
    let spoilt = spoil_table(placed, damage, side, random).filter(|_| !random.one_in(10));
    let (mut name, spoilt) = match spoilt {
        Some(spoilt) => (format!("table, {damage:?} {side:?}"), spoilt),
        None => ("table, anywhere".into(), spoil_anywhere(placed, random)),
    };
    let SpoiltTable {
        mut block,
        rows,
        tags,
        ids,
        ..
    } = spoilt;
    if random.one_in(4) {
        name += ", a byte more";
        change_a_byte(&mut block, random);
    }
    subject(name, placed, block, Known { rows, tags, ids })
}

/// One that the tests before the cells look at, where the heap is sound.
fn change_a_byte(block: &mut [u8], random: &mut Random) {
    let record = record_place(block).filter(|_| random.one_in(2));
    let (start, length) = match record {
        Some((start, length)) => (start, length.min(HEAD)),
        None => (0, block.len().min(8)),
    };
    if length > 0 {
        block[start + random.below(length)] ^= 1 << random.below(8);
    }
}

/// Where the record of a table stands, and how many bytes it has.
fn record_place(block: &[u8]) -> Option<(usize, usize)> {
    let root = block.get(4..8)?;
    let root = u32::from_le_bytes([root[0], root[1], root[2], root[3]]);
    let item = model::item(block, root).ok()?;
    Some((item.start, item.length))
}

/// Item numbers of all kinds, right and wrong, put into references, whose existence bits are set.
fn other_items(placed: &PlacedTable, random: &mut Random) -> Subject {
    let mut subject = as_built(placed);
    let place = match placed.table.rows {
        Rows::Item(item) => model::item(&placed.block, item).ok(),
        _ => None,
    };
    let rows = match place {
        Some(item) => &mut subject.bytes[item.start..item.start + item.length],
        None => &mut subject.table.rows[..],
    };
    let references = placed.columns.iter();
    let references = references.filter(|column| is_reference(column.tag as u16));
    let references: Vec<_> = references.copied().collect();
    let last = (placed.items.len() as u32) << 5;
    for row in rows.chunks_exact_mut(usize::from(placed.table.row_size)) {
        if let Some(column) = random.pick(&references) {
            let item =
                random.one_of([last, last + 32, 32, last + 16, 1 << 16, 1 << 31 | 32, 31, 0]);
            let at = usize::from(column.offset);
            row[at..at + 4].copy_from_slice(&item.to_le_bytes());
            let existence = placed.table.existence + u16::from(column.bit / 8);
            row[usize::from(existence)] |= 0x80 >> (column.bit % 8);
            subject.table.tags.push(column.tag);
        }
    }
    subject.name += ", other items";
    subject.asks = 12;
    subject
}

/// A field of the record changed, with a thought for the rules: it breaks one, or just does not.
fn other_record(placed: &PlacedTable, random: &mut Random) -> Subject {
    let mut subject = as_built(placed);
    let Some((start, length)) = record_place(&subject.bytes) else {
        return subject;
    };
    let record = &mut subject.bytes[start..start + length];
    if placed.columns.is_empty() || random.one_in(5) {
        let last = (placed.items.len() as u32) << 5;
        let rows = random.one_of([0, 1, 16, 31, 48, 1 << 16, last, last + 16, last + 32]);
        put(record, ROWS, &rows.to_le_bytes());
    } else {
        change_columns(record, placed.columns.len(), random);
    }
    subject.name += ", other record";
    subject
}

/// A column of any width; or one brought to another, so that they share a tag, a bit or a byte, or just
/// do not.
fn change_columns(record: &mut [u8], columns: usize, random: &mut Random) {
    let one = HEAD + COLUMN * random.below(columns);
    let other = HEAD + COLUMN * random.below(columns);
    match random.below(5) {
        0 => {
            record.copy_within(one..one + 4, other);
            record[other + random.below(4)] ^= random.one_of([0, 1, 0x80]);
        }
        1 => record[other + 7] = record[one + 7].wrapping_add(random.below(2) as u8),
        2 => {
            if let Some(free) = make_room(record) {
                put(record, one + 4, &free.to_le_bytes());
                record[one + 6] = random.one_of([0, 1, 2, 3, 4, 5, 6, 7, 8, 9, 12, 16, 255]);
            }
        }
        _ => {
            if let Some(free) = make_room(record) {
                let second = free + random.between(0, 16) as u16;
                put(record, one + 4, &(free + 8).to_le_bytes());
                put(record, other + 4, &second.to_le_bytes());
            }
        }
    }
}

/// Moves the existence bytes, and answers where free bytes begin before them.
fn make_room(record: &mut [u8]) -> Option<u16> {
    const ROOM: u16 = 32;
    let [existence, row_size] = [6, 8].map(|at| u16::from_le_bytes([record[at], record[at + 1]]));
    let longer = row_size.checked_add(ROOM)?;
    put(record, 6, &(existence + ROOM).to_le_bytes());
    put(record, 8, &longer.to_le_bytes());
    Some(existence)
}

fn put(bytes: &mut [u8], at: usize, field: &[u8]) {
    bytes[at..at + field.len()].copy_from_slice(field);
}

/// A heap of properties, as it is or said to be a table, or random bytes.
fn no_table(random: &mut Random) -> Subject {
    let mut subject = if random.one_in(3) {
        random_heap(random)
    } else {
        let heap = heap(random);
        heap_subject("heap as a table".into(), &heap, heap.block.clone())
    };
    if subject.bytes.len() > 3 && random.one_in(2) {
        subject.bytes[3] = 0x7C;
    }
    subject.calls = ON_TABLE;
    let length = random.below(300);
    subject.table.rows = random.bytes(length);
    subject
}
