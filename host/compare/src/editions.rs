//! The two editions: what calls on an image have to meet in each of them, and calls on a heap at the lengths
//! that one of them brought.

use crate::ask::{Ask, Call, Lent, ON_HEAP, ON_IMAGE, ON_TABLE};
use crate::lists::WORDS;
use crate::tables::LENGTHS;
use model::edition::Edition;
use model::page::Tree;
use model::Lookup;
use std::collections::BTreeSet;
use std::fmt;

/// The most bytes of a block, and of the data of a node: the model's, said here once more.
fn most_bytes(edition: Edition) -> (u16, u64) {
    match edition {
        Edition::Bits64 => (8176, 8_347_696),
        Edition::Bits32 => (8180, 16_711_740),
    }
}

/// Sizes of blocks that have to be met in both editions.
const SIZES: std::ops::RangeInclusive<u16> = 8175..=8181;

/// The refusals of the header and their places, by the edition of the version, whether that is looked at
/// before them or not.
fn of_header(edition: Edition) -> &'static [(u64, u64)] {
    match edition {
        Edition::Bits64 => &[
            (2, 0),
            (2, 8),
            (4, 4),
            (4, 524),
            (5, 512),
            (5, 513),
            (1, 184),
        ],
        Edition::Bits32 => &[(2, 0), (2, 8), (4, 4), (5, 460), (5, 461), (1, 168)],
    }
}

/// Versions that are refused: next to those that are taken, and one that other files have.
const VERSIONS: [u16; 5] = [13, 16, 22, 24, 36];

/// What a call on an image has met, or one on a heap.
#[derive(Clone, Copy, PartialEq, Eq, PartialOrd, Ord, Debug)]
pub enum Met {
    /// Answered, under a header of that edition.
    Answered(Edition),
    /// Refused by the header of such a version, with that number and place.
    Header(Edition, u64, u64),
    /// 3 for that version.
    Version(u16),
    /// Refused behind a header of that edition.
    Refused(Edition, u64),
    /// Answered, with a root page of that level in the tree that the call reads first.
    Level(Edition, u8),
    /// A number of 2^32 or more, whose low bytes name a block of a file of 32 bits, is no block of it.
    Beyond,
    /// A block of that size, answered, or 13 where the edition has no such size.
    Size(Edition, u16),
    /// Node data of as many bytes as the edition allows, answered.
    LongestData(Edition),
    /// A heap's block of that length, not refused with 18; where it is too long, refused for that alone.
    Heap(usize),
}

impl Met {
    /// What a run has to meet, call by call.
    pub fn all() -> impl Iterator<Item = (Call, Met)> {
        let on_image: BTreeSet<_> = ON_IMAGE.iter().copied().collect();
        let on_heap: BTreeSet<_> = ON_HEAP.iter().chain(ON_TABLE).copied().collect();
        let of = |met: fn(Call) -> Vec<Met>| {
            move |call| met(call).into_iter().map(move |met| (call, met))
        };
        let images = on_image.into_iter().flat_map(of(of_image));
        images.chain(on_heap.into_iter().flat_map(of(of_heap)))
    }

    /// What an answer to a call on an image says of the edition; of a list each place in its area.
    pub fn in_call(ask: &Ask, lent: Lent, answer: &[u64], area: &[u64]) -> Vec<Met> {
        let read = Read::new(ask.call, lent.bytes);
        if ask.call != Call::FindNodes {
            return read.in_answer(ask.number, answer);
        }
        if answer[0] != 0 {
            return Vec::new();
        }
        let places = lent.nodes.iter().zip(area.chunks_exact(WORDS));
        places
            .flat_map(|(&node, place)| read.in_answer(node, place))
            .collect()
    }

    /// What an answer to a call on a heap says of its length.
    pub fn in_heap(block: &[u8], answer: &[u64]) -> Option<Met> {
        let length = LENGTHS.into_iter().find(|&length| length == block.len())?;
        let too_long = length > LENGTHS[3];
        let shorter = &block[..length.min(LENGTHS[3])];
        let met = if too_long {
            answer[0] == 18 && model::test_heap(shorter).is_ok()
        } else {
            answer[0] != 18
        };
        met.then_some(Met::Heap(length))
    }
}

fn of_heap(_: Call) -> Vec<Met> {
    LENGTHS.map(Met::Heap).to_vec()
}

fn of_image(call: Call) -> Vec<Met> {
    let mut all: Vec<_> = VERSIONS.map(Met::Version).to_vec();
    for edition in Edition::BOTH {
        all.push(Met::Answered(edition));
        let refused = of_header(edition).iter();
        all.extend(refused.map(|&(number, place)| Met::Header(edition, number, place)));
        let numbers = match call {
            Call::FindNodes => Call::FindNode.refusals(),
            _ => call.refusals(),
        };
        let behind = numbers.into_iter().filter(|&number| number > 5);
        all.extend(behind.map(|number| Met::Refused(edition, number)));
        if call.first_tree().is_some() {
            all.extend((0..=7).map(|level| Met::Level(edition, level)));
        }
        if matches!(call, Call::TestBlock | Call::ReadBlock | Call::ReadNode) {
            all.extend(SIZES.map(|size| Met::Size(edition, size)));
        }
        if call == Call::ReadNode {
            all.push(Met::LongestData(edition));
        }
    }
    if call.seeks_block() || call == Call::NextBlock {
        all.push(Met::Beyond);
    }
    all
}

/// An image, and what the model says of its head.
struct Read<'a> {
    call: Call,
    image: &'a [u8],
    header: model::Answer<model::Header>,
    /// Of the root page that the call reads first, whether it is right or not.
    level: Option<u8>,
}

impl<'a> Read<'a> {
    fn new(call: Call, image: &'a [u8]) -> Self {
        let header = model::header(image);
        let level = header
            .ok()
            .zip(call.first_tree())
            .and_then(|(header, tree)| {
                let root = match tree {
                    Tree::Nodes => header.nodes,
                    Tree::Blocks => header.blocks,
                };
                let counts = match header.edition {
                    Edition::Bits64 => 488,
                    Edition::Bits32 => 496,
                };
                let place = usize::try_from(root.offset).ok()?.checked_add(counts + 3)?;
                image.get(place).copied()
            });
        Self {
            call,
            image,
            header,
            level,
        }
    }

    fn in_answer(&self, number: u64, answer: &[u64]) -> Vec<Met> {
        let edition = Edition::of(self.image);
        let Ok(header) = self.header else {
            return self.by_header(edition, answer).into_iter().collect();
        };
        let mut met = vec![match answer[0] {
            0 => Met::Answered(edition),
            refusal => Met::Refused(edition, refusal),
        }];
        let level = self.level.filter(|_| answer[0] == 0);
        met.extend(level.map(|level| Met::Level(edition, level)));
        met.extend(
            self.size(edition, number, answer[0])
                .map(|size| Met::Size(edition, size)),
        );
        if self.call == Call::ReadNode && answer[4] == most_bytes(edition).1 {
            met.push(Met::LongestData(edition));
        }
        if header.edition == Edition::Bits32 && self.is_beyond(number, answer) {
            met.push(Met::Beyond);
        }
        met
    }

    /// Nothing of a version that need not be met, nor of an image that is too short or too long.
    fn by_header(&self, edition: Edition, answer: &[u64]) -> Option<Met> {
        let refused = (answer[0], answer[1]);
        if refused == (3, 10) {
            let version = u16::from_le_bytes([self.image[10], self.image[11]]);
            return VERSIONS.contains(&version).then_some(Met::Version(version));
        }
        let known = of_header(edition).contains(&refused);
        known.then_some(Met::Header(edition, refused.0, refused.1))
    }

    /// The size of the one block that the call reads, where it is near the most.
    fn size(&self, edition: Edition, number: u64, refusal: u64) -> Option<u16> {
        let block = match self.call {
            Call::TestBlock | Call::ReadBlock => number,
            Call::ReadNode => {
                let node = model::find_node(self.image, number).ok()?.found()?;
                Some(node.data).filter(|data| data & 2 == 0 && *data > 1)?
            }
            _ => return None,
        };
        let size = model::find_block(self.image, block).ok()?.found()?.size;
        let expected = if size <= most_bytes(edition).0 {
            matches!(refusal, 0 | 17)
        } else {
            refusal == 13
        };
        (SIZES.contains(&size) && expected).then_some(size)
    }

    fn is_beyond(&self, number: u64, answer: &[u64]) -> bool {
        let absent = match self.call {
            Call::FindBlock | Call::NextBlock => answer[0] == 0 && answer[3] == 0,
            Call::TestBlock | Call::ReadBlock => answer[0] == 12,
            _ => return false,
        };
        let low = number & u64::from(u32::MAX);
        let listed = model::find_block(self.image, low).map(Lookup::found);
        absent && number > low && listed.is_ok_and(|listed| listed.is_some())
    }
}

impl fmt::Display for Met {
    fn fmt(&self, f: &mut fmt::Formatter) -> fmt::Result {
        match self {
            Met::Answered(edition) => write!(f, "{} bits, answered", edition.bits()),
            Met::Header(edition, number, place) => {
                write!(f, "{} bits, {number} at {place}", edition.bits())
            }
            Met::Version(version) => write!(f, "3, version {version}"),
            Met::Refused(edition, number) => write!(f, "{} bits, {number}", edition.bits()),
            Met::Level(edition, level) => write!(f, "{} bits, level {level}", edition.bits()),
            Met::Beyond => write!(f, "32 bits, number of 2^32"),
            Met::Size(edition, size) => write!(f, "{} bits, {size} bytes", edition.bits()),
            Met::LongestData(edition) => write!(f, "{} bits, longest data", edition.bits()),
            Met::Heap(length) => write!(f, "heap of {length} bytes"),
        }
    }
}
