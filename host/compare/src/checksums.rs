//! Checksums: which part of the bytes one is taken of, and what calls for one have to meet.

use model::random::Random;
use std::fmt;

/// So many bytes a checksum takes at a time.
const EIGHT: usize = 8;

/// A place in memory is told by how far it is behind a multiple of this.
const ALIGNMENTS: usize = 16;

/// Some of the bytes that are lent.
#[derive(Clone, Copy, PartialEq, Eq, Debug)]
pub struct Part {
    pub from: usize,
    /// Where there are fewer, all of them.
    pub length: usize,
}

impl Part {
    pub const WHOLE: Part = Part {
        from: 0,
        length: usize::MAX,
    };

    pub fn of(self, bytes: &[u8]) -> &[u8] {
        let behind = &bytes[self.from.min(bytes.len())..];
        &behind[..self.length.min(behind.len())]
    }

    /// Of so many bytes: under eight, some eights, next to a multiple of eight, or all.
    pub fn draw(bytes: usize, random: &mut Random) -> Part {
        let eights = (bytes / EIGHT).max(1);
        let length = match random.below(8) {
            0..=2 => random.below(EIGHT),
            3..=4 => random.between(EIGHT, 10 * EIGHT),
            5..=6 => EIGHT * random.between(1, eights) - 1 + random.below(3),
            _ => usize::MAX,
        };
        Part {
            from: random.below(ALIGNMENTS.min(bytes + 1)),
            length,
        }
    }
}

/// What a checksum was taken of.
#[derive(Clone, Copy, PartialEq, Eq, PartialOrd, Ord, Debug)]
pub enum Met {
    /// So many bytes, fewer than eight.
    Short(usize),
    /// Eight bytes or more, with so many behind the last eight.
    Rest(usize),
    /// Bytes that begin so far behind a multiple of 16 in memory.
    Alignment(usize),
}

impl Met {
    /// What a run has to meet.
    pub fn all() -> impl Iterator<Item = Met> {
        let short = (0..EIGHT).map(Met::Short);
        let rest = (0..EIGHT).map(Met::Rest);
        let alignments = (0..ALIGNMENTS).map(Met::Alignment);
        short.chain(rest).chain(alignments)
    }

    /// Where no bytes begin says nothing.
    pub fn in_call(bytes: &[u8]) -> Vec<Met> {
        let length = match bytes.len() {
            0 => return vec![Met::Short(0)],
            short @ 1..EIGHT => Met::Short(short),
            long => Met::Rest(long % EIGHT),
        };
        let alignment = Met::Alignment(bytes.as_ptr().addr() % ALIGNMENTS);
        vec![length, alignment]
    }
}

impl fmt::Display for Met {
    fn fmt(&self, f: &mut fmt::Formatter) -> fmt::Result {
        match self {
            Met::Short(length) => write!(f, "of {length} bytes"),
            Met::Rest(rest) => write!(f, "of eights and {rest} bytes"),
            Met::Alignment(alignment) => write!(f, "from {alignment} behind a multiple of 16"),
        }
    }
}
