//! Where the file ends: the end-of-file number in the header, and what stands before and behind it.

use model::build::end::{
    block_behind, block_over, hanging_on, move_block, move_page, page_behind, page_over,
    root_behind, too_high, zero,
};
use model::build::seal::{put_end, seal_header, set_end};
use model::build::{build, build_small_of, Built, PlacedPage, Plan};
use model::damage::{spoil, Damage, END};
use model::edition::Edition;
use model::header::file;
use model::nodes::WORDS;
use model::page::Tree;
use model::random::Random;
use model::{
    check_blocks, check_nodes, find_block, find_node, find_nodes, header, next_block, next_node,
    read_block, read_node, test_block, Answer, Header, Refusal,
};

/// Everything up to here is the header, whatever the end-of-file number is.
const HEADER: usize = 564;

fn refused<T>(number: u64, place: usize) -> Answer<T> {
    Err(Refusal::new(number, place as u64))
}

/// A small image of two trees, with one page to each level.
fn small() -> Built {
    small_of(Edition::Bits64)
}

fn small_of(edition: Edition) -> Built {
    let plan = Plan {
        edition,
        node_level: 2,
        block_level: 1,
        block_nodes: 4,
        tree_nodes: 1,
        most_size: 200,
        most_children: 3,
        tidy: true,
        ..Plan::default()
    };
    build(1, &plan)
}

fn with_end(image: &[u8], end: u64) -> Vec<u8> {
    let mut image = image.to_vec();
    set_end(&mut image, end);
    image
}

/// The answer of every call on an image to all those numbers, and the bytes that it hands out.
fn answers(image: &[u8], built: &Built) -> Vec<String> {
    let mut said = vec![
        format!("{:?}", header(image)),
        format!("{:?}", check_nodes(image)),
        format!("{:?}", check_blocks(image)),
    ];
    let mut out = vec![0xA5; 30_000];
    for node in numbers(&built.node_numbers()) {
        said.push(format!("{:?}", find_node(image, node)));
        said.push(format!("{:?}", next_node(image, node)));
        let read = read_node(image, node, &mut out);
        said.push(format!("{read:?} {:08x}", model::checksum(&out)));
    }
    for block in numbers(&built.block_numbers()) {
        said.push(format!("{:?}", find_block(image, block)));
        said.push(format!("{:?}", next_block(image, block)));
        said.push(format!("{:?}", test_block(image, block)));
        let read = read_block(image, block, &mut out);
        said.push(format!("{read:?} {:08x}", model::checksum(&out)));
    }
    let nodes = numbers(&built.node_numbers());
    let mut places = vec![0; WORDS * nodes.len()];
    let listed = find_nodes(image, &nodes, &mut places);
    said.push(format!("{listed:?} {places:?}"));
    said
}

/// Those numbers, one that is not among them, and both ends.
fn numbers(known: &[u64]) -> Vec<u64> {
    let absent = known.first().map_or(33, |number| number + 3);
    [known, &[absent, 0, u64::MAX]].concat()
}

/// The refusal of every call on an image to those numbers.
fn assert_refused_by_all(image: &[u8], built: &Built, refusal: Refusal) {
    let mut out = vec![0; 30_000];
    assert_eq!(header(image), Err(refusal));
    assert_eq!(check_nodes(image), Err(refusal));
    assert_eq!(check_blocks(image), Err(refusal));
    for node in numbers(&built.node_numbers()) {
        assert_eq!(find_node(image, node), Err(refusal));
        assert_eq!(next_node(image, node), Err(refusal));
        assert_eq!(read_node(image, node, &mut out), Err(refusal));
        let mut place = [7; WORDS];
        assert_eq!(find_nodes(image, &[node], &mut place), Ok(()));
        let Refusal {
            number,
            place: at,
            more,
        } = refusal;
        assert_eq!(place, [number, at, more, 0, 0, 0, 0, 0, 0]);
    }
    for block in numbers(&built.block_numbers()) {
        assert_eq!(find_block(image, block), Err(refusal));
        assert_eq!(next_block(image, block), Err(refusal));
        assert_eq!(test_block(image, block), Err(refusal));
        assert_eq!(read_block(image, block, &mut out), Err(refusal));
    }
    assert!(out.iter().all(|&byte| byte == 0));
}

#[test]
fn numbers_up_to_the_length() {
    let built = small();
    let length = built.image.len() as u64;
    let said = header(&built.image).expect("a header");
    assert_eq!(said.end, length);
    for end in [0, 1, 183, 184, 563, 564, 0x4400, length - 1, length] {
        let image = with_end(&built.image, end);
        assert_eq!(header(&image), Ok(Header { end, ..said }));
    }
    let shortest = &built.image[..HEADER];
    for end in [0, 1, 563, 564] {
        let image = with_end(shortest, end);
        assert_eq!(header(&image), Ok(Header { end, ..said }));
    }
}

#[test]
fn numbers_above_the_length() {
    let built = small();
    let length = built.image.len() as u64;
    let edges = [length + 1, length + 64, 1_073_741_824, u64::MAX];
    let one_high_bit = (31..64).map(|bit| (length - 64) | 1 << bit);
    for end in edges.into_iter().chain(one_high_bit) {
        let image = with_end(&built.image, end);
        assert_refused_by_all(&image, &built, Refusal::new(1, 184));
    }
    let shortest = with_end(&built.image[..HEADER], 565);
    assert_eq!(header(&shortest), refused(1, 184));
    // As it stands, cut off.
    let cut = &built.image[..built.image.len() - 1];
    assert_refused_by_all(cut, &built, Refusal::new(1, 184));
}

/// Every test of the header comes before it.
#[test]
fn last_of_the_header() {
    let built = small();
    let above = with_end(&built.image, built.image.len() as u64 + 1);
    let spoilt = |at: usize, byte: u8, sealed: bool| {
        let mut image = above.clone();
        image[at] = byte;
        if sealed {
            seal_header(&mut image);
        }
        header(&image)
    };
    assert_eq!(header(&above[..HEADER - 1]), refused(1, 0));
    assert_eq!(spoilt(0, 0, true), refused(2, 0));
    assert_eq!(spoilt(9, 0, true), refused(2, 8));
    assert_eq!(spoilt(10, 24, true), refused(3, 10));
    assert_eq!(spoilt(4, above[4] ^ 1, false), refused(4, 4));
    assert_eq!(spoilt(524, above[524] ^ 1, false), refused(4, 524));
    assert_eq!(spoilt(512, 0, true), refused(5, 512));
    assert_eq!(spoilt(513, 3, true), refused(5, 513));
    assert_eq!(spoilt(513, 2, true), refused(1, 184));
}

/// It comes before every fault of a page: here both roots are nowhere.
#[test]
fn before_any_page() {
    let built = small();
    let mut image = built.image.clone();
    image[224..232].fill(0xFF);
    image[240..248].fill(0xFF);
    seal_header(&mut image);
    assert_eq!(check_nodes(&image), Err(Refusal::new(6, u64::MAX)));
    assert_eq!(check_blocks(&image), Err(Refusal::new(6, u64::MAX)));
    let image = with_end(&image, image.len() as u64 + 1);
    assert_refused_by_all(&image, &built, Refusal::new(1, 184));
}

/// Both checksums are over the number.
#[test]
fn not_sealed() {
    let built = small();
    let length = built.image.len() as u64;
    for end in [0, length - 64, length - 1, length + 1, u64::MAX] {
        let mut image = built.image.clone();
        put_end(&mut image, end);
        assert_refused_by_all(&image, &built, Refusal::new(4, 4));
        let partial = model::checksum(&image[8..8 + 471]);
        image[4..8].copy_from_slice(&partial.to_le_bytes());
        assert_refused_by_all(&image, &built, Refusal::new(4, 524));
    }
}

/// The end is the smaller of the two, whether or not the header is accepted.
#[test]
fn the_smaller_of_the_two() {
    let mut image = vec![0; 1000];
    for (end, expected) in [(0, 0), (1, 1), (999, 999), (1000, 1000), (1001, 1000)] {
        put_end(&mut image, end);
        assert_eq!(file(&image).len(), expected);
        assert!(header(&image).is_err());
    }
    put_end(&mut image, 1 << 32);
    assert_eq!(file(&image).len(), 1000);
    assert_eq!(file(&image[..192]).len(), 192);
    assert_eq!(file(&image[..191]).len(), 191);
    assert_eq!(file(&[]), []);
}

#[test]
fn no_page_before_zero() {
    let built = zero(Edition::Bits64);
    let image = &built.image;
    let said = header(image).expect("a header");
    let (nodes, blocks) = (said.nodes.offset, said.blocks.offset);
    assert_eq!(said.end, 0);
    assert_eq!(check_nodes(image), Err(Refusal::new(6, nodes)));
    assert_eq!(check_blocks(image), Err(Refusal::new(6, blocks)));
    for end in [1, HEADER as u64, 0x4400, 0x4400 + 511] {
        let image = with_end(image, end);
        for node in numbers(&built.node_numbers()) {
            let mut out = [0; 900];
            assert_eq!(find_node(&image, node), Err(Refusal::new(6, nodes)));
            assert_eq!(next_node(&image, node), Err(Refusal::new(6, nodes)));
            let read = read_node(&image, node, &mut out);
            assert_eq!(read, Err(Refusal::new(6, nodes)));
        }
        for block in numbers(&built.block_numbers()) {
            assert_eq!(find_block(&image, block), Err(Refusal::new(6, blocks)));
            assert_eq!(next_block(&image, block), Err(Refusal::new(6, blocks)));
            assert_eq!(test_block(&image, block), Err(Refusal::new(6, blocks)));
        }
    }
}

fn check(image: &[u8], tree: Tree) -> Answer<()> {
    match tree {
        Tree::Nodes => check_nodes(image),
        Tree::Blocks => check_blocks(image),
    }
}

/// Whether the page is on the way to that key.
fn leads_to(built: &Built, page: &PlacedPage, number: u64) -> bool {
    let key = |number| page.tree.key(number);
    let same_level = |other: &&PlacedPage| other.tree == page.tree && other.level == page.level;
    let pages = built.pages.iter().filter(same_level);
    let starts = pages.filter(|other| key(other.keys[0]) <= key(number));
    let last = starts.max_by_key(|other| key(other.keys[0]));
    page.is_root || last.is_some_and(|last| last.offset == page.offset)
}

/// Ends before `stop`, by a byte or more; the first is where the image ended before something came to
/// stand there from `start` on.
fn ends_before(old: usize, start: usize, stop: usize) -> impl Iterator<Item = u64> {
    let ends = [old, start, start + 1, start + 64, stop - 64, stop - 1];
    let before = move |end: &usize| *end < stop;
    ends.into_iter().filter(before).map(|end| end as u64)
}

/// A page that is sound in all but its place, to which its parent or the header leads.
#[test]
fn pages_around_the_end() {
    for built in Edition::BOTH.map(small_of) {
        assert_pages_around_the_end(&built);
    }
}

fn assert_pages_around_the_end(built: &Built) {
    let whole = answers(&built.image, built);
    let mut seen = 0;
    for page in &built.pages {
        let mut image = built.image.clone();
        let start = move_page(&mut image, built, page);
        let stop = start + 512;
        assert_eq!(stop, image.len());
        image.extend_from_slice(&[0; 100]);
        for end in [stop, stop + 1, stop + 100] {
            let image = with_end(&image, end as u64);
            assert_eq!(answers(&image, built)[1..], whole[1..]);
        }
        for end in ends_before(built.image.len(), start, stop) {
            let image = with_end(&image, end);
            assert_eq!(check(&image, page.tree), refused(6, start));
            seen += assert_behind(&image, built, page, start);
        }
    }
    assert!(seen > 100, "{seen}");
}

/// Which lookups meet the page that stands there; the number of them.
fn assert_behind(image: &[u8], built: &Built, page: &PlacedPage, start: usize) -> usize {
    let mut met = 0;
    let known = match page.tree {
        Tree::Nodes => built.node_numbers(),
        Tree::Blocks => built.block_numbers(),
    };
    for number in known {
        let (found, next) = match page.tree {
            Tree::Nodes => (
                find_node(image, number).map(|_| ()),
                next_node(image, number).map(|_| ()),
            ),
            Tree::Blocks => (
                test_block(image, number).map(|_| ()),
                next_block(image, number).map(|_| ()),
            ),
        };
        assert_eq!(found, next);
        if leads_to(built, page, number) {
            assert_eq!(found, refused(6, start));
            met += 1;
        } else {
            assert_eq!(found, Ok(()));
        }
    }
    met
}

/// A block that is sound in all but its place, and listed there.
#[test]
fn blocks_around_the_end() {
    for built in Edition::BOTH.map(small_of) {
        assert_blocks_around_the_end(&built);
    }
}

fn assert_blocks_around_the_end(built: &Built) {
    for block in &built.blocks {
        let mut image = built.image.clone();
        let start = move_block(&mut image, built, block);
        let stop = image.len();
        let moved = answers(&with_end(&image, stop as u64), built);
        image.extend_from_slice(&[0; 100]);
        for end in [stop, stop + 1, stop + 100] {
            let image = with_end(&image, end as u64);
            assert_eq!(answers(&image, built)[1..], moved[1..]);
            assert_eq!(test_block(&image, block.number), Ok(block.size));
        }
        for end in ends_before(built.image.len(), start, stop) {
            let image = with_end(&image, end);
            assert_eq!(check_nodes(&image), Ok(()));
            assert_eq!(check_blocks(&image), Ok(()));
            assert_refused_block(&image, built, block.number, start);
        }
    }
}

/// That block is refused, with every node whose data it belongs to; all else is read.
fn assert_refused_block(image: &[u8], built: &Built, refused_block: u64, start: usize) {
    for block in &built.blocks {
        let mut out = [0; 300];
        let tested = test_block(image, block.number);
        let read = read_block(image, block.number, &mut out);
        if block.number == refused_block {
            assert_eq!(tested, refused(13, start));
            assert_eq!(read, refused(13, start));
            let listed = find_block(image, block.number).expect("a lookup");
            assert_eq!(
                listed.found().map(|listed| listed.offset),
                Some(start as u64)
            );
        } else {
            assert_eq!(tested, Ok(block.size));
            assert_eq!(out[..block.data.len()], block.data);
        }
    }
    for node in &built.nodes {
        let mut out = [0; 1000];
        let read = read_node(image, u64::from(node.node), &mut out);
        let parts = built.parts(node);
        if parts.contains(&refused_block) || node.data == refused_block {
            assert_eq!(read, refused(13, start));
        } else {
            assert_eq!(read, Ok(Some(built.data(node).len())));
        }
    }
}

/// What may stand behind the end of that image, the end-of-file number being at most its length: the
/// image cut off there, its own bytes changed, and bytes added of each sort.
fn other_tails(image: &[u8], random: &mut Random) -> Vec<Vec<u8>> {
    let start = file(image).len().max(HEADER);
    let (kept, tail) = image.split_at(start);
    let mut flipped = image.to_vec();
    flipped[start..].iter_mut().for_each(|byte| *byte ^= 0xFF);
    let mut copied = image.to_vec();
    copied.extend_from_within(HEADER..);
    vec![
        kept.to_vec(),
        [kept, &tail[..tail.len() / 2]].concat(),
        flipped,
        [kept, &random.bytes(tail.len())].concat(),
        [image, &[0; 600]].concat(),
        [image, &random.bytes(600)].concat(),
        [kept, &[0]].concat(),
        copied,
    ]
}

fn assert_tail_alike(image: &[u8], built: &Built, random: &mut Random) {
    let said = answers(image, built);
    for other in other_tails(image, random) {
        assert_eq!(answers(&other, built), said);
    }
}

/// No answer of any call turns on what hangs on behind the end.
#[test]
fn what_hangs_on() {
    let mut random = Random::new(6);
    for seed in 0..80 {
        let edition = Edition::BOTH[seed as usize % 2];
        let built = build_small_of(edition, seed / 2, false);
        assert_tail_alike(&built.image, &built, &mut random);
        let built = build_small_of(edition, seed / 2, true);
        for damage in END {
            for sealed in [false, true] {
                let image = spoil(&built, *damage, sealed, &mut random).image;
                let layout = edition.layout();
                let number = layout.number_at(&image, layout.header.end);
                if number <= image.len() as u64 {
                    assert_tail_alike(&image, &built, &mut random);
                }
            }
        }
    }
}

/// Where the sound image behind the chosen ones ends.
const OLD_END: usize = 22_464;

#[test]
fn chosen_images() {
    let accepted = Ok(());
    let behind = refused(6, OLD_END);
    for (built, nodes, blocks) in [
        (hanging_on(Edition::Bits64), accepted, accepted),
        (root_behind(Edition::Bits64), behind, accepted),
        (page_behind(Edition::Bits64), behind, accepted),
        (page_over(Edition::Bits64, 64), accepted, behind),
        (page_over(Edition::Bits64, 0), accepted, accepted),
        (block_behind(Edition::Bits64), accepted, accepted),
        (block_over(Edition::Bits64, 1), accepted, accepted),
        (block_over(Edition::Bits64, 0), accepted, accepted),
    ] {
        let length = built.image.len() as u64;
        let end = header(&built.image).map(|header| header.end);
        assert!(end.is_ok_and(|end| end < length));
        assert_eq!(check_nodes(&built.image), nodes);
        assert_eq!(check_blocks(&built.image), blocks);
        assert_sound(&built, &with_end(&built.image, length));
    }
    assert_eq!(header(&too_high(Edition::Bits64).image), refused(1, 184));
}

/// All pages and blocks of the image are accepted.
fn assert_sound(built: &Built, image: &[u8]) {
    assert_eq!(check_nodes(image), Ok(()));
    assert_eq!(check_blocks(image), Ok(()));
    for block in &built.blocks {
        assert_eq!(test_block(image, block.number), Ok(block.size));
    }
}

#[test]
fn chosen_images_of_blocks() {
    for (built, expected) in [
        (block_behind(Edition::Bits64), refused(13, OLD_END)),
        (block_over(Edition::Bits64, 1), refused(13, OLD_END)),
        (block_over(Edition::Bits64, 0), Ok(180)),
    ] {
        assert_eq!(test_block(&built.image, 0x10C), expected);
        let read = read_node(&built.image, 0x8122, &mut [0; 800]);
        assert_eq!(read, expected.map(|_| Some(800)));
    }
}

/// The refusals that the header, the checks of both trees and the test of every block give to images
/// with that damage.
fn led_to(damage: Damage, sealed: bool) -> Vec<u64> {
    let mut found = Vec::new();
    for seed in 0..300 {
        let built = build_small_of(Edition::BOTH[seed as usize % 2], seed / 2, true);
        let image = spoil(&built, damage, sealed, &mut Random::new(seed)).image;
        let mut note = |answer: Answer<()>| found.extend(answer.err().map(|fault| fault.number));
        note(header(&image).map(|_| ()));
        note(check_nodes(&image));
        note(check_blocks(&image));
        for block in &built.blocks {
            note(test_block(&image, block.number).map(|_| ()));
        }
    }
    found.sort_unstable();
    found.dedup();
    found
}

#[test]
fn damage() {
    assert_eq!(led_to(Damage::EndBelow, true), [6]);
    assert_eq!(led_to(Damage::EndAbove, true), [1]);
    assert_eq!(led_to(Damage::EndNearPage, true), [6]);
    assert_eq!(led_to(Damage::HangingOn, true), []);
    assert_eq!(led_to(Damage::PageBehind, true), [6]);
    assert_eq!(led_to(Damage::BlockBehind, true), [13]);
    assert_eq!(led_to(Damage::MoveToEnd, true), []);
    assert_eq!(led_to(Damage::MoveToEnd, false), [13]);
    for damage in [Damage::EndBelow, Damage::EndAbove, Damage::EndNearPage] {
        assert_eq!(led_to(damage, false), [4], "{damage:?}");
    }
    // The end may be where it was, which needs no seal.
    assert_eq!(led_to(Damage::PageBehind, false), [4, 6]);
    assert_eq!(led_to(Damage::BlockBehind, false), [4, 13]);
    // Where the image is cut off in the header, no number can be put right.
    assert_eq!(led_to(Damage::Cut, true), [1, 6]);
    assert_eq!(led_to(Damage::Cut, false), [1]);
}
