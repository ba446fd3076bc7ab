//! The model's answers as the fields of `include/rekwonuda.h`, in their order; unused ones are 0.

use model::{
    Answer, Block, Cell, Column, Header, Item, Lookup, Node, Property, Rows, Table, Value,
};

fn fields<T, const N: usize>(answer: Answer<T>, fill: impl FnOnce(T, &mut [u64])) -> [u64; N] {
    let mut fields = [0; N];
    match answer {
        Ok(value) => fill(value, &mut fields[3..]),
        Err(refusal) => {
            fields[..3].copy_from_slice(&[refusal.number, refusal.place, refusal.more]);
        }
    }
    fields
}

/// A number alone, which no refusal can take the place of.
pub fn number(number: impl Into<u64>) -> [u64; 1] {
    [number.into()]
}

pub fn plain(answer: Answer<()>) -> [u64; 3] {
    fields(answer, |(), _| {})
}

pub fn header(answer: Answer<Header>) -> [u64; 10] {
    fields(answer, |header, rest| {
        let Header {
            method,
            nodes,
            blocks,
            end,
            edition,
        } = header;
        let method = u64::from(method);
        rest.copy_from_slice(&[
            method,
            nodes.number,
            nodes.offset,
            blocks.number,
            blocks.offset,
            end,
            edition.bits(),
        ]);
    })
}

/// As the model puts it into a place of a list too.
pub fn node(answer: Answer<Lookup<Node>>) -> [u64; 9] {
    model::nodes::in_words(answer)
}

pub fn block(answer: Answer<Lookup<Block>>) -> [u64; 9] {
    fields(answer, |lookup, rest| match lookup {
        Lookup::Absent { pages } => rest[1] = pages,
        Lookup::Found { pages, entry } => rest.copy_from_slice(&[
            1,
            pages,
            entry.block,
            entry.offset,
            u64::from(entry.size),
            u64::from(entry.references),
        ]),
    })
}

pub fn size(answer: Answer<u16>) -> [u64; 4] {
    fields(answer, |size, rest| rest[0] = u64::from(size))
}

pub fn length(answer: Answer<usize>) -> [u64; 4] {
    fields(answer, |length, rest| rest[0] = length as u64)
}

pub fn data(answer: Answer<Option<usize>>) -> [u64; 5] {
    fields(answer, |length, rest| {
        if let Some(length) = length {
            rest.copy_from_slice(&[1, length as u64]);
        }
    })
}

pub fn item(answer: Answer<Item>) -> [u64; 5] {
    fields(answer, |item, rest| {
        rest.copy_from_slice(&[item.start as u64, item.length as u64]);
    })
}

pub fn property(answer: Answer<Option<Property>>) -> [u64; 7] {
    fields(answer, |property, rest| {
        let Some(Property { kind, value }) = property else {
            return;
        };
        let (which, value) = match value {
            Value::Number(number) => (0, number),
            Value::Empty => (1, 0),
            Value::Item(item) => (2, item),
            Value::Subnode(subnode) => (3, subnode),
        };
        rest.copy_from_slice(&[1, u64::from(kind), which, u64::from(value)]);
    })
}

pub fn table(answer: Answer<Table>) -> [u64; 8] {
    fields(answer, |table, rest| {
        let (kind, number) = match table.rows {
            Rows::None => (1, 0),
            Rows::Item(item) => (2, item),
            Rows::Subnode(subnode) => (3, subnode),
        };
        rest.copy_from_slice(&[
            u64::from(table.columns),
            u64::from(table.row_size),
            u64::from(table.existence),
            kind,
            u64::from(number),
        ]);
    })
}

pub fn column(answer: Answer<Option<Column>>) -> [u64; 8] {
    fields(answer, |column, rest| {
        if let Some(column) = column {
            rest.copy_from_slice(&[
                1,
                u64::from(column.tag),
                u64::from(column.offset),
                u64::from(column.width),
                u64::from(column.bit),
            ]);
        }
    })
}

/// As the model puts it into a place of a row too.
pub fn cell(answer: Answer<Option<Cell>>) -> [u64; 6] {
    model::table::in_words(answer)
}

pub fn row(answer: Answer<Option<u32>>) -> [u64; 5] {
    fields(answer, |row, rest| {
        if let Some(row) = row {
            rest.copy_from_slice(&[1, u64::from(row)]);
        }
    })
}
