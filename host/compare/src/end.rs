//! Where the file ends: what a call on an image may meet there, and images that differ from one another
//! only behind the end.

use crate::ask::{Ask, Call, Lent, ON_IMAGE};
use crate::lists::WORDS;
use model::build::seal::set_end;
use model::edition::Edition;
use model::random::Random;
use std::collections::BTreeSet;
use std::fmt;

/// Everything up to here is the header, whatever the end-of-file number is.
const HEADER: usize = 564;

/// The first offset of a page or block: the model's, said here once more.
const FIRST_OFFSET: usize = 0x4400;

/// Where the end-of-file number stands, and how many bytes it has: the model's, said here once more.
fn number(edition: Edition) -> (usize, usize) {
    match edition {
        Edition::Bits64 => (184, 8),
        Edition::Bits32 => (168, 4),
    }
}

/// Fewer bytes than this are hung on behind an image.
const MOST_HUNG_ON: usize = 1500;

/// What a call has met of the end. A page or block that is refused lies in the image and is right in
/// itself: if the header let the file end with the image, the call would be answered.
#[derive(Clone, Copy, PartialEq, Eq, PartialOrd, Ord, Debug)]
pub enum Met {
    /// 1 at 184, or at 168 in a file of 32 bits: the number is above the image's length.
    TooHigh,
    /// The header is accepted, and its number is 0.
    Zero,
    /// Answered, with bytes behind the end.
    HangingOn,
    /// 6: the page begins before the end and goes on behind it.
    PageOver,
    /// 6: the page begins at the end or behind it.
    PageBehind,
    /// Answered: a page that the call has read ends just there, with bytes behind it.
    PageAt,
    /// 13: the block begins before the end, and its room goes on behind it.
    BlockOver,
    /// 13: the block begins at the end or behind it.
    BlockBehind,
    /// Answered: the room of a block that the call has read ends just there, with bytes behind it.
    BlockAt,
}

impl Met {
    /// What a run has to meet, call by call and in each edition.
    pub fn all() -> impl Iterator<Item = (Call, Edition, Met)> {
        let calls: BTreeSet<_> = ON_IMAGE.iter().copied().collect();
        let met_by = |call| {
            let met = Met::of_call(call).iter();
            met.flat_map(move |&met| Edition::BOTH.map(|edition| (call, edition, met)))
        };
        calls.into_iter().flat_map(met_by)
    }

    fn of_call(call: Call) -> &'static [Met] {
        use Met::*;
        match call {
            Call::Header => &[TooHigh, Zero, HangingOn],
            Call::TestBlock | Call::ReadBlock | Call::ReadNode => &[
                TooHigh,
                HangingOn,
                PageOver,
                PageBehind,
                PageAt,
                BlockOver,
                BlockBehind,
                BlockAt,
            ],
            _ => &[TooHigh, HangingOn, PageOver, PageBehind, PageAt],
        }
    }

    /// What an answer to a call on an image says of the end; of a list each place in its area.
    pub fn in_call(ask: &Ask, lent: Lent, answer: &[u64], area: &[u64]) -> Vec<Met> {
        let around = Around::new(lent.bytes);
        let (place, _) = number(Edition::of(lent.bytes));
        let in_answer = |call, number, answer: &[u64]| {
            if answer[..2] == [1, place as u64] {
                return vec![Met::TooHigh];
            }
            in_answer(call, number, answer, around.as_ref())
        };
        if ask.call != Call::FindNodes {
            return in_answer(ask.call, ask.number, answer);
        }
        if answer[0] != 0 {
            return Vec::new();
        }
        let places = lent.nodes.iter().zip(area.chunks_exact(WORDS));
        let met = places.flat_map(|(&node, place)| in_answer(Call::FindNode, node, place));
        met.collect()
    }
}

/// The same image with its end elsewhere.
struct Around {
    end: u64,
    /// With the image's end.
    raised: Vec<u8>,
    /// One byte before it; none before 0.
    lowered: Option<Vec<u8>>,
}

impl Around {
    /// None where the header is refused, or no byte stands behind the end.
    fn new(image: &[u8]) -> Option<Self> {
        let length = image.len() as u64;
        let end = model::header(image).ok()?.end;
        let with_end = |end| {
            let mut image = image.to_vec();
            set_end(&mut image, end);
            image
        };
        (end < length).then(|| Self {
            end,
            raised: with_end(length),
            lowered: end.checked_sub(1).map(with_end),
        })
    }
}

fn in_answer(call: Call, number: u64, answer: &[u64], around: Option<&Around>) -> Vec<Met> {
    let Some(around) = around else {
        return Vec::new();
    };
    match answer[0] {
        0 => in_answered(call, number, around),
        refusal @ (6 | 13) if refused_by(call, &around.raised, number) == 0 => {
            let begins_before = answer[1] < around.end;
            vec![match (refusal, begins_before) {
                (6, true) => Met::PageOver,
                (6, false) => Met::PageBehind,
                (_, true) => Met::BlockOver,
                (_, false) => Met::BlockBehind,
            }]
        }
        _ => Vec::new(),
    }
}

fn in_answered(call: Call, number: u64, around: &Around) -> Vec<Met> {
    let mut met = vec![Met::HangingOn];
    if call == Call::Header {
        met.extend((around.end == 0).then_some(Met::Zero));
        return met;
    }
    let lowered = around.lowered.as_ref();
    match lowered.map(|image| refused_by(call, image, number)) {
        Some(6) => met.push(Met::PageAt),
        Some(13) => met.push(Met::BlockAt),
        _ => {}
    }
    met
}

/// The number of the refusal that the model gives, 0 for none; a buffer is as long as it has to be.
fn refused_by(call: Call, image: &[u8], number: u64) -> u64 {
    let answer = match call {
        Call::CheckNodes => model::check_nodes(image),
        Call::CheckBlocks => model::check_blocks(image),
        Call::FindNode => model::find_node(image, number).map(|_| ()),
        Call::FindBlock => model::find_block(image, number).map(|_| ()),
        Call::NextNode => model::next_node(image, number).map(|_| ()),
        Call::NextBlock => model::next_block(image, number).map(|_| ()),
        Call::TestBlock | Call::ReadBlock => model::test_block(image, number).map(|_| ()),
        Call::ReadNode => model::read_node(image, number, &mut []).map(|_| ()),
        _ => model::header(image).map(|_| ()),
    };
    match answer {
        Err(refusal) if refusal.number != 17 => refusal.number,
        _ => 0,
    }
}

impl fmt::Display for Met {
    fn fmt(&self, f: &mut fmt::Formatter) -> fmt::Result {
        f.write_str(match self {
            Met::TooHigh => "1, number too high",
            Met::Zero => "number 0",
            Met::HangingOn => "answered, bytes behind",
            Met::PageOver => "6, page over the end",
            Met::PageBehind => "6, page behind",
            Met::PageAt => "page up to the end",
            Met::BlockOver => "13, block over the end",
            Met::BlockBehind => "13, block behind",
            Met::BlockAt => "block up to the end",
        })
    }
}

/// An image that differs from this one only behind the end: cut off there, or with other bytes. None
/// where the end-of-file number is not in the image, or above its length.
pub fn other_behind(image: &[u8], random: &mut Random) -> Option<Vec<u8>> {
    if image.len() < HEADER {
        return None;
    }
    let (place, width) = number(Edition::of(image));
    let mut field = [0; 8];
    field[..width].copy_from_slice(&image[place..place + width]);
    let end = usize::try_from(u64::from_le_bytes(field)).ok()?;
    let (kept, hanging) = image.split_at_checked(end.max(HEADER))?;
    let length = random.between(1, MOST_HUNG_ON);
    let other = match random.below(6) {
        0 if !hanging.is_empty() => Vec::new(),
        1 if !hanging.is_empty() => hanging[..random.below(hanging.len())].to_vec(),
        2 if !hanging.is_empty() => random.bytes(hanging.len()),
        3 => vec![0; length],
        4 => image[FIRST_OFFSET.min(image.len())..].to_vec(),
        _ => random.bytes(length),
    };
    Some([kept, &other].concat())
}
