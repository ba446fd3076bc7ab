//! Lists of nodes: how long they are and their areas, and what a call for one may meet.

use model::random::Random;
use std::fmt;

/// The model's bounds, said here once more: a slip there must not change what is drawn or has to be met.
pub const MOST_NODES: usize = 4096;
pub const WORDS: usize = 9;

/// What a call for a list has met.
#[derive(Clone, Copy, PartialEq, Eq, PartialOrd, Ord, Debug)]
pub enum Met {
    /// A list of so many numbers.
    Length(usize),
    /// 17, the list is over 4,096.
    LongList,
    /// 17, the area has fewer places than the list has numbers.
    ShortArea,
    /// In a place a node that is there.
    Found,
    /// In a place a node that is not.
    Absent,
    /// In a place that refusal.
    Refused(u64),
    /// In one place a node that is there, and in another a refusal.
    FoundAndRefused,
}

impl Met {
    /// What a run has to meet.
    pub fn all() -> impl Iterator<Item = Met> {
        let lengths = [0, 1, MOST_NODES, MOST_NODES + 1].map(Met::Length);
        let refusals = (1..=11).chain([21]).map(Met::Refused);
        let refused = [Met::LongList, Met::ShortArea];
        let places = [Met::Found, Met::Absent, Met::FoundAndRefused];
        let all = lengths.into_iter().chain(refused).chain(places);
        all.chain(refusals)
    }

    /// What the answer to a list of that length says, and each place that it wrote.
    pub fn in_call(length: usize, answer: &[u64], area: &[u64]) -> Vec<Met> {
        let mut met = vec![Met::Length(length)];
        match *answer {
            [0, ..] => met.extend(area.chunks_exact(WORDS).take(length).map(in_place)),
            [17, 0, more] if length > MOST_NODES && more == MOST_NODES as u64 => {
                met.push(Met::LongList);
            }
            [17, 0, more] if more == length as u64 => met.push(Met::ShortArea),
            _ => {}
        }
        let refused = met.iter().any(|met| matches!(met, Met::Refused(_)));
        if refused && met.contains(&Met::Found) {
            met.push(Met::FoundAndRefused);
        }
        met
    }
}

fn in_place(place: &[u64]) -> Met {
    match (place[0], place[3]) {
        (0, 0) => Met::Absent,
        (0, _) => Met::Found,
        (refusal, _) => Met::Refused(refusal),
    }
}

impl fmt::Display for Met {
    fn fmt(&self, f: &mut fmt::Formatter) -> fmt::Result {
        match self {
            Met::Length(length) => write!(f, "of length {length}"),
            Met::LongList => write!(f, "17, long list"),
            Met::ShortArea => write!(f, "17, short area"),
            Met::Found => write!(f, "found in a place"),
            Met::Absent => write!(f, "absent in a place"),
            Met::Refused(number) => write!(f, "refusal {number} in a place"),
            Met::FoundAndRefused => write!(f, "found here, refused there"),
        }
    }
}

/// Mostly a few numbers. Long lists are slow, so they are rare.
pub fn length(random: &mut Random) -> usize {
    match random.below(1000) {
        0..=3 => long(random),
        4..=59 => 0,
        60..=159 => 1,
        160..=199 => random.between(12, 40),
        _ => random.between(2, 8),
    }
}

/// As long as a list may be, or longer by one.
pub fn long(random: &mut Random) -> usize {
    random.one_of([MOST_NODES, MOST_NODES + 1])
}

/// Numbers that are drawn one by one, some of them repeated; as they were drawn or ascending.
pub fn draw(
    length: usize,
    random: &mut Random,
    mut number: impl FnMut(&mut Random) -> u64,
) -> Vec<u64> {
    let mut nodes = Vec::with_capacity(length);
    for _ in 0..length {
        let again = random.pick(&nodes).copied();
        let node = match again.filter(|_| random.one_in(4)) {
            Some(node) => node,
            None => number(random),
        };
        nodes.push(node);
    }
    if random.one_in(3) {
        nodes.sort_unstable();
    }
    nodes
}

/// The words of an area for so many places of so many words each: none, a word or a place short, exact,
/// or over.
pub fn area(places: usize, words: usize, random: &mut Random) -> usize {
    let exact = words * places;
    match random.below(12) {
        0 => 0,
        1 => exact.saturating_sub(1),
        2 => exact.saturating_sub(words),
        3 => exact.saturating_sub(random.between(2, words - 1)),
        4..=5 => exact + random.between(1, words - 1),
        6 => exact + words * random.between(1, 3),
        7 => exact + random.below(5 * words),
        _ => exact,
    }
}
