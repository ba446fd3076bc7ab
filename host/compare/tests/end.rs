//! What the comparison has to meet at the end of the file, how an answer is told to be it, and that
//! nothing that hangs on behind the end makes a difference to the proved library.

use compare::ask::{alike_on_another, ask, Ask, Call, Lent, ON_IMAGE};
use compare::buffers::Buffers;
use compare::end::{other_behind, Met};
use compare::lists::WORDS;
use compare::tally::Tally;
use model::build::end::{
    block_behind, block_over, hanging_on, page_behind, page_over, root_behind, too_high, zero,
};
use model::build::{build, Built, Plan};
use model::edition::Edition;
use model::images::images;
use model::random::Random;
use std::collections::BTreeSet;

const WIDE: Edition = Edition::Bits64;

#[test]
fn what_has_to_be_met() {
    let all: BTreeSet<_> = Met::all().collect();
    assert_eq!(all.len(), 2 * (3 + 7 * 5 + 3 * 8));
    let of = |met| {
        all.iter()
            .filter(move |(_, _, other)| *other == met)
            .count()
    };
    assert_eq!((of(Met::TooHigh), of(Met::HangingOn)), (22, 22));
    let pages = [Met::PageOver, Met::PageBehind, Met::PageAt];
    assert_eq!(pages.map(of), [20; 3]);
    let blocks = [Met::BlockOver, Met::BlockBehind, Met::BlockAt];
    assert_eq!(blocks.map(of), [6; 3]);
    let words: BTreeSet<_> = all.iter().map(|(_, _, met)| met.to_string()).collect();
    assert_eq!(words.len(), 9);
    assert_eq!(Tally::default().ends_not_reached().len(), all.len());
}

/// What the call for that number meets.
fn met(built: &Built, call: Call, number: u64) -> Vec<Met> {
    let nodes = [number, number];
    let question = Ask {
        words: 2 * WORDS,
        out_length: 200,
        ..Ask::new(call, number)
    };
    let lent = Lent {
        bytes: &built.image,
        nodes: &nodes,
        rows: &[],
    };
    let mut buffers = Buffers::default();
    let answers = ask(&question, lent, lent, &mut buffers);
    assert_eq!(answers.proved, answers.model);
    Met::in_call(&question, lent, &answers.model, buffers.area())
}

#[test]
fn in_the_header() {
    use Met::*;
    let said = |built: Built| met(&built, Call::Header, 0);
    for edition in Edition::BOTH {
        let plan = Plan {
            edition,
            ..Plan::default()
        };
        assert_eq!(said(build(1, &plan)), []);
        assert_eq!(said(too_high(edition)), [TooHigh]);
        assert_eq!(said(zero(edition)), [HangingOn, Zero]);
        assert_eq!(said(page_behind(edition)), [HangingOn]);
        for call in [Call::CheckBlocks, Call::FindNode, Call::ReadBlock] {
            assert_eq!(met(&too_high(edition), call, 0x100), [TooHigh]);
        }
        assert_eq!(met(&too_high(edition), Call::FindNodes, 5), [TooHigh; 2]);
    }
}

#[test]
fn of_pages() {
    use Met::*;
    // The last page is the root of the node tree; the leaves of the block tree part before 0x10E.
    assert_eq!(
        met(&hanging_on(WIDE), Call::CheckNodes, 0),
        [HangingOn, PageAt]
    );
    assert_eq!(met(&hanging_on(WIDE), Call::CheckBlocks, 0), [HangingOn]);
    assert_eq!(met(&root_behind(WIDE), Call::CheckNodes, 0), [PageBehind]);
    assert_eq!(met(&root_behind(WIDE), Call::NextNode, 0), [PageBehind]);
    assert_eq!(met(&root_behind(WIDE), Call::FindNodes, 7), [PageBehind; 2]);
    assert_eq!(
        met(&page_behind(WIDE), Call::ReadNode, 0x8022),
        [PageBehind]
    );
    assert_eq!(
        met(&page_behind(WIDE), Call::ReadNode, 0x80E2),
        [HangingOn, PageAt]
    );
    assert_eq!(
        met(&page_over(WIDE, 64), Call::FindBlock, 0x100),
        [PageOver]
    );
    assert_eq!(
        met(&page_over(WIDE, 64), Call::FindBlock, 0x110),
        [HangingOn]
    );
    assert_eq!(
        met(&page_over(WIDE, 512), Call::TestBlock, 0x100),
        [PageBehind]
    );
    assert_eq!(
        met(&page_over(WIDE, 0), Call::TestBlock, 0x100),
        [HangingOn, PageAt]
    );
}

#[test]
fn of_blocks() {
    Edition::BOTH.into_iter().for_each(assert_blocks);
}

fn assert_blocks(edition: Edition) {
    use Met::*;
    let node = 0x8082;
    let room = edition.layout().room(180);
    for (bytes, expected) in [(1, BlockOver), (64, BlockOver), (room, BlockBehind)] {
        let built = block_over(edition, bytes);
        assert_eq!(met(&built, Call::TestBlock, 0x10C), [expected]);
        assert_eq!(met(&built, Call::ReadBlock, 0x10C), [expected]);
        assert_eq!(met(&built, Call::ReadNode, node), [expected]);
        assert_eq!(met(&built, Call::FindBlock, 0x10C), [HangingOn]);
    }
    let behind = block_behind(edition);
    assert_eq!(met(&behind, Call::TestBlock, 0x10C), [BlockBehind]);
    let built = block_over(edition, 0);
    for (call, number) in [
        (Call::TestBlock, 0x10C),
        (Call::ReadBlock, 0x10C),
        (Call::ReadNode, node),
    ] {
        assert_eq!(met(&built, call, number), [HangingOn, BlockAt]);
    }
    // The data of this node is longer than the buffer: 17 says nothing of the end.
    assert_eq!(met(&built, Call::ReadNode, 0x8122), []);
}

/// A page or block that is refused on its own account too is not told.
#[test]
fn not_by_the_end_alone() {
    for edition in Edition::BOTH {
        let mut built = page_behind(edition);
        let page = built.image.len() - 512;
        built.image[page] ^= 1;
        assert_eq!(met(&built, Call::FindNode, 0x8022), []);
        let mut built = block_behind(edition);
        let block = built.block(0x10C).expect("it is placed").offset;
        built.image[block] ^= 1;
        assert_eq!(met(&built, Call::TestBlock, 0x10C), []);
    }
}

/// The chosen images, each with its tail cut off, changed and grown.
#[test]
fn chosen_images() {
    let mut random = Random::new(6);
    let mut buffers = Buffers::default();
    let mut lengths = BTreeSet::new();
    for image in images() {
        for _ in 0..8 {
            let Some(other) = other_behind(&image.bytes, &mut random) else {
                continue;
            };
            lengths.insert(other.len().cmp(&image.bytes.len()));
            for &call in ON_IMAGE {
                for &number in image.nodes.iter().chain(&image.blocks) {
                    let question = Ask {
                        out_length: image.buffer.min(900),
                        words: WORDS * image.nodes.len(),
                        ..Ask::new(call, number)
                    };
                    let lent = Lent {
                        bytes: &image.bytes,
                        nodes: &image.nodes,
                        rows: &[],
                    };
                    let alike = alike_on_another(&question, lent, &other, &mut buffers);
                    assert!(alike, "{}: {question:x?}", image.name);
                }
            }
        }
    }
    assert_eq!(lengths.len(), 3);
}

#[test]
fn images_that_are_drawn() {
    let mut random = Random::new(1);
    for edition in Edition::BOTH {
        let hanging = hanging_on(edition).image;
        let end = model::header(&hanging).expect("a header").end as usize;
        let mut lengths = BTreeSet::new();
        for _ in 0..200 {
            let other = other_behind(&hanging, &mut random).expect("another");
            assert_eq!(other[..end], hanging[..end]);
            lengths.insert(other.len());
        }
        assert!(lengths.contains(&end) && lengths.contains(&hanging.len()));
        let zero = zero(edition).image;
        let other = other_behind(&zero, &mut random).expect("another");
        assert_eq!(other[..564], zero[..564]);
        assert_eq!(other_behind(&too_high(edition).image, &mut random), None);
        assert_eq!(other_behind(&zero[..563], &mut random), None);
    }
}
