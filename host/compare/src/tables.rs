//! Tables: what a call on one may meet.

pub mod draw;
mod fault;
mod told;

use crate::ask::Call;
use std::fmt;

pub use fault::Fault;

/// The model's bounds, said here once more: a slip there must not change what is drawn or has to be met.
pub const CELL_WORDS: usize = 6;
pub const MOST_ROWS: usize = 8180;

/// Lengths of heaps and rows that have to be met: those that no block of 64 bits has, and the first that
/// is too long.
pub const LENGTHS: [usize; 5] = [8177, 8178, 8179, MOST_ROWS, MOST_ROWS + 1];

/// What a call on a table has met.
#[derive(Clone, Copy, PartialEq, Eq, PartialOrd, Ord, Debug)]
pub enum Met {
    /// That fault refused the call, or one cell of a row.
    Refused(Call, Fault),
    /// A record with rows of that kind.
    Rows(u64),
    /// Rows in a subnode, in a block of that length.
    RowsBlock(Length),
    /// A call that was answered, for a number at a limit.
    Asked(Call, Number),
    /// A row that is there, and a tag that no column has.
    UnknownTag(Tag),
    /// A cell that is there, in an answer or in a place of a row.
    Cell(Call, Content),
    /// A row index with so many index levels and rows, where the id was found or not.
    Index(Call, u8, bool),
    /// A row index without rows.
    EmptyIndex(Call),
    /// An area for the cells of a row that is there.
    Area(Area),
    /// An area that would be too short, were the row there.
    AreaForAbsent,
}

#[derive(Clone, Copy, PartialEq, Eq, PartialOrd, Ord, Debug)]
pub enum Length {
    None,
    OneUnderWholeRows,
    WholeRows,
    OneOverWholeRows,
    /// One of those lengths.
    Bytes(usize),
    Longer,
}

/// A row's number or a column's index.
#[derive(Clone, Copy, PartialEq, Eq, PartialOrd, Ord, Debug)]
pub enum Number {
    First,
    Last,
    Behind,
    /// 255, which no column has.
    Byte,
    /// All 32 bits set.
    Highest,
}

#[derive(Clone, Copy, PartialEq, Eq, PartialOrd, Ord, Debug)]
pub enum Tag {
    Zero,
    /// It differs in one bit from a column's.
    Near,
    Other,
}

#[derive(Clone, Copy, PartialEq, Eq, PartialOrd, Ord, Debug)]
pub enum Content {
    /// Of so many bytes.
    Number(u8),
    Empty,
    Item,
    Subnode,
    Missing,
}

#[derive(Clone, Copy, PartialEq, Eq, PartialOrd, Ord, Debug)]
pub enum Area {
    None,
    WordShort,
    Exact,
    Longer,
}

impl Met {
    /// What a run has to meet.
    pub fn all() -> impl Iterator<Item = Met> {
        use {Area as A, Call::*, Length as L, Number as N, Tag as T};
        let calls = [Table, Column, CountRows, Cell, FindRow, FindRow32, ReadRow];
        let refused = calls.into_iter().flat_map(|call| {
            let faults = Fault::all_of(call).into_iter();
            faults.map(move |fault| Met::Refused(call, fault))
        });
        let blocks = [
            L::None,
            L::OneUnderWholeRows,
            L::WholeRows,
            L::OneOverWholeRows,
            L::Longer,
        ];
        let blocks = blocks.into_iter().chain(LENGTHS.map(L::Bytes));
        let numbers = [N::First, N::Last, N::Behind, N::Highest];
        let asked = numbers
            .into_iter()
            .flat_map(|number| [Column, Cell, ReadRow].map(|call| Met::Asked(call, number)));
        let others = [Met::Asked(Column, N::Byte), Met::AreaForAbsent];
        refused
            .chain([1, 2, 3].map(Met::Rows))
            .chain(blocks.map(Met::RowsBlock))
            .chain(asked)
            .chain([T::Zero, T::Near, T::Other].map(Met::UnknownTag))
            .chain([Cell, ReadRow].into_iter().flat_map(contents))
            .chain([FindRow, FindRow32].into_iter().flat_map(indexes))
            .chain([A::None, A::WordShort, A::Exact, A::Longer].map(Met::Area))
            .chain(others)
    }
}

fn indexes(call: Call) -> impl Iterator<Item = Met> {
    let of = move |levels| [true, false].map(|found| Met::Index(call, levels, found));
    (0..=3).flat_map(of).chain([Met::EmptyIndex(call)])
}

fn contents(call: Call) -> [Met; 8] {
    use Content::*;
    let all = [
        Number(1),
        Number(2),
        Number(4),
        Number(8),
        Empty,
        Item,
        Subnode,
        Missing,
    ];
    all.map(|content| Met::Cell(call, content))
}

impl fmt::Display for Met {
    fn fmt(&self, f: &mut fmt::Formatter) -> fmt::Result {
        match self {
            Met::Refused(call, fault) => write!(f, "{call:?}: {}, {fault}", fault.number()),
            Met::Rows(1) => write!(f, "rows none"),
            Met::Rows(2) => write!(f, "rows in an item"),
            Met::Rows(_) => write!(f, "rows in a subnode"),
            Met::RowsBlock(length) => write!(f, "rows' block: {length}"),
            Met::Asked(Call::Column, Number::Byte) => write!(f, "Column: column 255"),
            Met::Asked(Call::Column, number) => write!(f, "Column: {number} column"),
            Met::Asked(call, number) => write!(f, "{call:?}: {number} row"),
            Met::UnknownTag(Tag::Zero) => write!(f, "unknown tag: 0"),
            Met::UnknownTag(Tag::Near) => write!(f, "unknown tag: one bit off a column's"),
            Met::UnknownTag(Tag::Other) => write!(f, "unknown tag: any other"),
            Met::Cell(call, content) => write!(f, "{call:?}: {content}"),
            Met::Index(call, levels, true) => write!(f, "{call:?}: index levels {levels}, found"),
            Met::Index(call, levels, false) => write!(f, "{call:?}: index levels {levels}, absent"),
            Met::EmptyIndex(call) => write!(f, "{call:?}: index without rows"),
            Met::Area(area) => write!(f, "area for a row: {area}"),
            Met::AreaForAbsent => write!(f, "area too short for an absent row"),
        }
    }
}

impl fmt::Display for Length {
    fn fmt(&self, f: &mut fmt::Formatter) -> fmt::Result {
        f.write_str(match self {
            Length::None => "no bytes",
            Length::OneUnderWholeRows => "a byte under whole rows",
            Length::WholeRows => "whole rows",
            Length::OneOverWholeRows => "a byte over whole rows",
            Length::Bytes(length) => return write!(f, "{length} bytes"),
            Length::Longer => "over 8181 bytes",
        })
    }
}

impl fmt::Display for Number {
    fn fmt(&self, f: &mut fmt::Formatter) -> fmt::Result {
        f.write_str(match self {
            Number::First => "first",
            Number::Last => "last",
            Number::Behind => "one behind the last",
            Number::Byte => "255",
            Number::Highest => "highest",
        })
    }
}

impl fmt::Display for Content {
    fn fmt(&self, f: &mut fmt::Formatter) -> fmt::Result {
        match self {
            Content::Number(width) => write!(f, "number of width {width}"),
            Content::Empty => write!(f, "empty"),
            Content::Item => write!(f, "item"),
            Content::Subnode => write!(f, "subnode"),
            Content::Missing => write!(f, "missing"),
        }
    }
}

impl fmt::Display for Area {
    fn fmt(&self, f: &mut fmt::Formatter) -> fmt::Result {
        f.write_str(match self {
            Area::None => "no words",
            Area::WordShort => "a word short",
            Area::Exact => "exact",
            Area::Longer => "longer",
        })
    }
}
