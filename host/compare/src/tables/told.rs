//! How an answer is told to be what has to be met.

use super::fault::{four, item, record, Fault};
use super::{Area, Content, Length, Met, Number, Tag, CELL_WORDS, LENGTHS, MOST_ROWS};
use crate::ask::{Ask, Call, Lent};
use model::{Column, Rows};

impl Met {
    /// What the answer says, and each place that it wrote in the area.
    pub fn in_call(ask: &Ask, lent: Lent, answer: &[u64], area: &[u64]) -> Vec<Met> {
        let mut met = rows_block(ask.call, lent);
        if ask.call == Call::ReadRow {
            met.extend(area_for(lent, answer, area.len()));
        }
        if answer[0] > 0 {
            met.push(refused(ask.call, lent, answer[0]));
            return met;
        }
        match ask.call {
            Call::Table => met.push(Met::Rows(answer[6])),
            Call::Column => met.extend(numbers(ask, columns(lent).count())),
            call if call.seeks_row() => met.extend(in_index(call, lent.bytes, answer[3] == 1)),
            Call::Cell => met.extend(cell(ask, lent, answer)),
            Call::ReadRow => met.extend(places(ask, lent, answer, area)),
            _ => {}
        }
        met
    }
}

fn refused(call: Call, lent: Lent, number: u64) -> Met {
    let fault = Fault::of(call, lent, number).expect("a fault of that number");
    Met::Refused(call, fault)
}

fn columns(lent: Lent<'_>) -> impl Iterator<Item = Column> + '_ {
    (0..).map_while(move |at| model::column(lent.bytes, at).ok().flatten())
}

/// Nothing where the block of the rows is not looked at.
fn rows_block(call: Call, lent: Lent) -> Vec<Met> {
    let looks = matches!(call, Call::CountRows | Call::Cell | Call::ReadRow);
    let table = model::table(lent.bytes).ok().filter(|_| looks);
    let Some(table) = table.filter(|table| matches!(table.rows, Rows::Subnode(_))) else {
        return Vec::new();
    };
    let (length, size) = (lent.rows.len(), usize::from(table.row_size));
    let whole = |length: usize| length > 0 && length.is_multiple_of(size);
    let lengths = [
        (Length::None, length == 0),
        (Length::OneUnderWholeRows, whole(length + 1)),
        (Length::WholeRows, whole(length)),
        (Length::OneOverWholeRows, length > 0 && whole(length - 1)),
        (Length::Bytes(length), LENGTHS.contains(&length)),
        (Length::Longer, length > MOST_ROWS + 1),
    ];
    let met = lengths.into_iter().filter(|(_, met)| *met);
    met.map(|(length, _)| Met::RowsBlock(length)).collect()
}

/// Of a row that is there, or would be.
fn area_for(lent: Lent, answer: &[u64], words: usize) -> Option<Met> {
    let needed = CELL_WORDS * columns(lent).count();
    match (answer[0], answer[3]) {
        (0, 0) => (words < needed).then_some(Met::AreaForAbsent),
        (0 | 17, _) if words == needed => Some(Met::Area(Area::Exact)),
        (0 | 17, _) if words > needed => Some(Met::Area(Area::Longer)),
        (0 | 17, _) if words == 0 => Some(Met::Area(Area::None)),
        (0 | 17, _) if words + 1 == needed => Some(Met::Area(Area::WordShort)),
        _ => None,
    }
}

/// The number asked for, where so many are there.
fn numbers(ask: &Ask, count: usize) -> Vec<Met> {
    let number = u64::from(ask.number as u32);
    let count = count as u64;
    let all = [
        (Number::First, number == 0 && count > 0),
        (Number::Last, number + 1 == count),
        (Number::Behind, number == count),
        (Number::Byte, number == 255),
        (Number::Highest, number == u64::from(u32::MAX)),
    ];
    let met = all.into_iter().filter(|(number, met)| {
        let of_columns = ask.call == Call::Column || *number != Number::Byte;
        *met && of_columns
    });
    met.map(|(number, _)| Met::Asked(ask.call, number))
        .collect()
}

fn rows_numbers(ask: &Ask, lent: Lent) -> Vec<Met> {
    let count = model::count_rows(lent.bytes, lent.rows).unwrap_or(0);
    numbers(ask, count)
}

fn cell(ask: &Ask, lent: Lent, answer: &[u64]) -> Vec<Met> {
    let mut met = rows_numbers(ask, lent);
    let count = model::count_rows(lent.bytes, lent.rows).unwrap_or(0);
    let column = columns(lent).find(|column| column.tag == ask.tag);
    match column {
        Some(column) if answer[3] == 1 => met.push(content(Call::Cell, column, answer[4])),
        None if (ask.number as u32 as usize) < count => met.push(unknown(ask.tag, lent)),
        _ => {}
    }
    met
}

fn unknown(tag: u32, lent: Lent) -> Met {
    let near = |column: Column| (column.tag ^ tag).is_power_of_two();
    let sort = match tag {
        0 => Tag::Zero,
        _ if columns(lent).any(near) => Tag::Near,
        _ => Tag::Other,
    };
    Met::UnknownTag(sort)
}

fn content(call: Call, column: Column, kind: u64) -> Met {
    let content = match kind {
        0 => Content::Number(column.width),
        1 => Content::Empty,
        2 => Content::Item,
        3 => Content::Subnode,
        _ => Content::Missing,
    };
    Met::Cell(call, content)
}

fn places(ask: &Ask, lent: Lent, answer: &[u64], area: &[u64]) -> Vec<Met> {
    let mut met = rows_numbers(ask, lent);
    if answer[3] == 1 {
        let places = columns(lent).zip(area.chunks_exact(CELL_WORDS));
        met.extend(places.map(|(column, place)| match place[0] {
            0 => content(Call::ReadRow, column, place[4]),
            number => refused(Call::ReadRow, lent, number),
        }));
    }
    met
}

fn in_index(call: Call, block: &[u8], found: bool) -> Option<Met> {
    let index = item(block, four(record(block)?, 10))?;
    match four(index, 4) {
        0 => Some(Met::EmptyIndex(call)),
        _ => Some(Met::Index(call, index[3], found)),
    }
}
