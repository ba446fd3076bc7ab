//! The refusals and their numbers (01, Refusal numbers; 02, 2/13 and 5/13).

/// The first fault met: its number, its place, and `more`: for 11 and 21 the index of the entry at
/// fault, for 17 the length or the number of places needed, otherwise 0.
#[derive(Clone, Copy, PartialEq, Eq, Debug)]
pub struct Refusal {
    pub number: u64,
    pub place: u64,
    pub more: u64,
}

pub type Answer<T> = Result<T, Refusal>;

impl Refusal {
    pub const fn new(number: u64, place: u64) -> Self {
        Self {
            number,
            place,
            more: 0,
        }
    }

    /// 11: the key of that entry is not above the one before it.
    pub const fn key_order(place: u64, entry: usize) -> Self {
        Self {
            number: 11,
            place,
            more: entry as u64,
        }
    }

    /// 21: the key of that entry lies outside the page's range.
    pub const fn key_range(place: u64, entry: usize) -> Self {
        Self {
            number: 21,
            place,
            more: entry as u64,
        }
    }

    /// 17, with the length or the number of places needed.
    pub const fn short(needed: usize) -> Self {
        Self {
            number: 17,
            place: 0,
            more: needed as u64,
        }
    }
}

/// Accepts where the test holds, else refuses with that number and place.
pub(crate) fn demand(holds: bool, number: u64, place: u64) -> Answer<()> {
    if holds {
        Ok(())
    } else {
        Err(Refusal::new(number, place))
    }
}
