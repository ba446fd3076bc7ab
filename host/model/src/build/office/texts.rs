//! Texts and their types as each edition has them: two bytes a unit in files of 64 bits, one in those of 32
//! (003, 2.5).

use super::super::heaps::Given;
use super::{Properties, TEXT};
use crate::edition::Edition;

/// The type of a text of one byte a unit.
const SHORT_TEXT: u16 = 0x1E;

/// Those properties, given as a file of 64 bits has them. Their texts have no unit above 255.
pub fn texts_of(edition: Edition, given: Properties) -> Properties {
    let property = |(id, kind, value)| match (edition, value) {
        (Edition::Bits32, Given::Bytes(units)) if kind == TEXT => {
            let short = units.chunks_exact(2).map(|unit| unit[0]);
            (id, SHORT_TEXT, Given::Bytes(short.collect()))
        }
        (_, value) => (id, kind_of(edition, kind), value),
    };
    given.into_iter().map(property).collect()
}

pub fn tags_of(edition: Edition, columns: &[u32]) -> Vec<u32> {
    let tag = |&tag: &u32| tag & 0xFFFF_0000 | u32::from(kind_of(edition, tag as u16));
    columns.iter().map(tag).collect()
}

fn kind_of(edition: Edition, kind: u16) -> u16 {
    match edition {
        Edition::Bits32 if kind == TEXT => SHORT_TEXT,
        _ => kind,
    }
}
