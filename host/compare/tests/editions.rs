//! What the comparison has to meet of the two editions, how an answer is told to be it, and that both come
//! up as often among what is lent.

use compare::ask::{ask, Ask, Call, Lent, ON_IMAGE};
use compare::buffers::Buffers;
use compare::editions::Met;
use compare::lists::WORDS;
use compare::subject::subjects;
use compare::tally::Tally;
use model::build::end::{page_behind, too_high};
use model::build::heaps::context_of_length;
use model::build::limits::{highest_listed, sizes};
use model::build::seal::seal_header;
use model::build::{build, Built, Plan};
use model::edition::Edition;
use model::random::Random;
use std::collections::BTreeSet;

use Edition::{Bits32, Bits64};

#[test]
fn what_has_to_be_met() {
    let all: BTreeSet<_> = Met::all().collect();
    assert_eq!(Met::all().count(), all.len());
    // Eleven calls on an image: versions, answers, and the header's refusals.
    let of_header = 11 * (5 + 2 + 7 + 6);
    // Behind it: 6 to 11 and 21, in three calls up to 15, in one 17 too, in one 16 and 17.
    let behind = 2 * (10 * 7 + 3 * 4 + 1 + 2);
    let levels = 10 * 2 * 8;
    // Numbers beyond, sizes of blocks, and the longest data.
    let others = 4 + 3 * 2 * 7 + 2;
    // Four calls on a heap and seven on a table.
    let heaps = 11 * 5;
    assert_eq!(all.len(), of_header + behind + levels + others + heaps);
    let words: BTreeSet<_> = all.iter().map(|(_, met)| met.to_string()).collect();
    let kinds: BTreeSet<_> = all.iter().map(|(_, met)| met).collect();
    assert_eq!(words.len(), kinds.len());
    assert_eq!(Tally::default().editions_not_reached().len(), all.len());
}

/// What the call for that number meets.
fn met(image: &[u8], call: Call, number: u64) -> Vec<Met> {
    let nodes = [number];
    let question = Ask {
        words: WORDS,
        out_length: 9000,
        ..Ask::new(call, number)
    };
    let lent = Lent {
        bytes: image,
        nodes: &nodes,
        rows: &[],
    };
    let mut buffers = Buffers::default();
    let answers = ask(&question, lent, lent, &mut buffers);
    assert_eq!(answers.proved, answers.model);
    Met::in_call(&question, lent, &answers.model, buffers.area())
}

fn small(edition: Edition) -> Built {
    let plan = Plan {
        edition,
        node_level: 3,
        block_level: 5,
        block_nodes: 2,
        most_size: 40,
        ..Plan::default()
    };
    build(1, &plan)
}

#[test]
fn answered() {
    for edition in Edition::BOTH {
        let built = small(edition);
        let answered = Met::Answered(edition);
        assert_eq!(met(&built.image, Call::Header, 0), [answered]);
        for call in [Call::CheckNodes, Call::FindNode, Call::FindNodes] {
            let expected = [answered, Met::Level(edition, 3)];
            assert_eq!(met(&built.image, call, 5), expected);
        }
        for call in [Call::CheckBlocks, Call::NextBlock] {
            let expected = [answered, Met::Level(edition, 5)];
            assert_eq!(met(&built.image, call, 5), expected);
        }
        let absent = met(&built.image, Call::TestBlock, 5 << 40 | 2);
        assert_eq!(absent, [Met::Refused(edition, 12)]);
        let behind = page_behind(edition);
        let refused = met(&behind.image, Call::NextNode, 0);
        assert_eq!(refused, [Met::Refused(edition, 6)]);
    }
}

#[test]
fn refused_by_the_header() {
    for (edition, place, sentinel) in [(Bits64, 184, 512), (Bits32, 168, 460)] {
        let high = too_high(edition).image;
        assert_eq!(
            met(&high, Call::Header, 0),
            [Met::Header(edition, 1, place)]
        );
        let with = |at: usize, byte: u8| {
            let mut image = small(edition).image;
            image[at] = byte;
            seal_header(&mut image);
            met(&image, Call::FindNodes, 0)
        };
        let at = sentinel as usize;
        assert_eq!(with(at, 0), [Met::Header(edition, 5, sentinel)]);
        assert_eq!(with(at + 1, 3), [Met::Header(edition, 5, sentinel + 1)]);
        for version in [13, 16, 22, 24, 36] {
            assert_eq!(with(10, version), [Met::Version(version.into())]);
        }
        assert_eq!(with(10, 37), []);
    }
}

#[test]
fn numbers_beyond() {
    let image = highest_listed(Bits32).image;
    let (absent, refused) = (Met::Answered(Bits32), Met::Refused(Bits32, 12));
    for call in [Call::FindBlock, Call::NextBlock] {
        let told = met(&image, call, 1 << 32 | 0x10);
        assert_eq!(told, [absent, Met::Level(Bits32, 0), Met::Beyond]);
    }
    for call in [Call::TestBlock, Call::ReadBlock] {
        assert_eq!(met(&image, call, 1 << 32), [refused, Met::Beyond]);
        assert_eq!(met(&image, call, 3 << 40 | 0x20), [refused]);
        assert_eq!(met(&image, call, 0x20), [refused]);
    }
    let wide = highest_listed(Bits64).image;
    let told = met(&wide, Call::TestBlock, 1 << 32 | 0x10);
    assert_eq!(told, [Met::Refused(Bits64, 12)]);
}

#[test]
fn sizes_about_the_most() {
    for (edition, most) in [(Bits64, 8176), (Bits32, 8180)] {
        for size in 8174..=8182 {
            let built = sizes(edition, &[size]);
            for (call, number) in [
                (Call::TestBlock, 4),
                (Call::ReadBlock, 4),
                (Call::ReadNode, 0x8022),
            ] {
                let told = met(&built.image, call, number);
                let is_told = told.contains(&Met::Size(edition, size as u16));
                assert_eq!(is_told, (8175..=8181).contains(&size));
                let expected = if size <= most {
                    Met::Answered(edition)
                } else {
                    Met::Refused(edition, 13)
                };
                assert_eq!(told[0], expected);
            }
        }
    }
}

#[test]
fn lengths_of_heaps() {
    let mut random = Random::new(1);
    for length in 8175..=8183 {
        let block = context_of_length(&mut random, length).block;
        let question = Ask::new(Call::TestHeap, 0);
        let lent = Lent {
            bytes: &block,
            nodes: &[],
            rows: &[],
        };
        let answers = ask(&question, lent, lent, &mut Buffers::default());
        assert_eq!(answers.proved, answers.model);
        let told = Met::in_heap(&block, &answers.model);
        let expected = (8177..=8181).contains(&length).then_some(Met::Heap(length));
        assert_eq!(told, expected);
        // One that is wrong in itself tells nothing of its length.
        let mut wrong = block.clone();
        wrong[2] = 0;
        assert_eq!(Met::in_heap(&wrong, &[18, 0, 0]), None);
    }
}

/// Images of both editions come up, one as often as the other.
#[test]
fn editions_that_are_drawn() {
    let mut seen = [0, 0];
    for subject in (0..400).flat_map(subjects) {
        let accepted = subject.calls.iter().all(|call| ON_IMAGE.contains(call))
            && model::header(&subject.bytes).is_ok();
        if accepted {
            seen[Edition::of(&subject.bytes) as usize] += 1;
        }
    }
    let [wide, narrow] = seen;
    assert!(wide + narrow > 1000);
    assert!(wide * 5 > narrow * 4 && narrow * 5 > wide * 4, "{seen:?}");
}
