//! Which call is made on a subject, and with what.

use crate::ask::{Ask, Call};
use crate::checksums::Part;
use crate::lists;
use crate::subject::Subject;
use crate::tables;
use model::random::Random;

/// A call, with the list of nodes or the block of rows for a call that takes one.
pub struct Question {
    pub ask: Ask,
    pub nodes: Vec<u64>,
    pub rows: Vec<u8>,
}

pub fn question(subject: &Subject, random: &mut Random) -> Question {
    let call = random.pick(subject.calls).copied().unwrap_or(Call::Room);
    if call.reads_table() {
        let (ask, rows) = tables::draw::draw(call, &subject.bytes, &subject.table, random);
        return Question {
            ask,
            nodes: Vec::new(),
            rows,
        };
    }
    let nodes = nodes_for(call, subject, random);
    Question {
        ask: ask_for(call, subject, nodes.len(), random),
        nodes,
        rows: Vec::new(),
    }
}

fn ask_for(call: Call, subject: &Subject, nodes: usize, random: &mut Random) -> Ask {
    let number = number_for(call, subject, random);
    let method = if random.one_in(8) {
        random.byte()
    } else {
        random.below(3) as u8
    };
    let offset = match random.below(3) {
        0 => number,
        1 => random.below(1 << 30) as u64,
        _ => random.number(),
    };
    let words = match call {
        Call::FindNodes => lists::area(nodes, lists::WORDS, random),
        _ => 0,
    };
    let part = match call {
        Call::Checksum => Part::draw(subject.bytes.len(), random),
        _ => Part::WHOLE,
    };
    Ask {
        offset,
        method,
        out_length: out_length(call, number, subject, random),
        words,
        part,
        ..Ask::new(call, number)
    }
}

/// Of any other call none.
fn nodes_for(call: Call, subject: &Subject, random: &mut Random) -> Vec<u64> {
    if call != Call::FindNodes {
        return Vec::new();
    }
    let length = if subject.long_lists {
        lists::long(random)
    } else {
        lists::length(random)
    };
    lists::draw(length, random, |random| number_for(call, subject, random))
}

fn number_for(call: Call, subject: &Subject, random: &mut Random) -> u64 {
    let known = match call {
        Call::TestItem | Call::Item => &subject.items,
        Call::FindProperty => &subject.ids,
        _ if call.takes_node() => &subject.nodes,
        _ => &subject.blocks,
    };
    let known = random.pick(known).copied().unwrap_or(64);
    match random.below(16) {
        0 => known.wrapping_add(1),
        1 => known.wrapping_sub(1),
        2 => random.one_of([0, 1, 2, 4, u64::MAX, u64::from(u32::MAX), 1 << 32]),
        3 => known | random.number() << 32,
        4 => random.number(),
        5 => random.below(10_000) as u64,
        6 => known ^ 1 << random.below(64),
        7..=9 if call.seeks_block() => known ^ 1,
        7..=9 if call == Call::NextBlock => near_key(known, random),
        _ => known,
    }
}

/// A listed number's key, or a number next to that key.
fn near_key(listed: u64, random: &mut Random) -> u64 {
    let key = listed & !1;
    random.one_of([key, key | 1, key.wrapping_add(2), key.wrapping_sub(1)])
}

/// None, one short, exact, one over, or some over what the call needs.
fn out_length(call: Call, number: u64, subject: &Subject, random: &mut Random) -> usize {
    let answer = match call {
        Call::ReadBlock => model::read_block(&subject.bytes, number, &mut []).map(|_| 0),
        Call::ReadNode => model::read_node(&subject.bytes, number, &mut []).map(|_| 0),
        Call::Encode | Call::Decode => return subject.bytes.len(),
        _ => return 0,
    };
    let needed = match answer {
        Err(refusal) if refusal.number == 17 => refusal.more as usize,
        _ => 0,
    };
    match random.below(6) {
        0 => 0,
        1 => needed.saturating_sub(1),
        2 | 3 => needed,
        4 => needed + 1,
        _ => needed + random.below(200),
    }
}
