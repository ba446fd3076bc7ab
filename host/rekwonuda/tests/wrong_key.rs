//! The key that a refusal by a key names, the key before it, and the range of its page.

use model::build::seal::{seal_header, seal_page};
use model::build::{build, build_small_of, Built, PlacedPage, Plan};
use model::damage::{spoil, spoil_again, Spoilt, HEADER, KEYS, PAGE, WHOLE};
use model::page::Tree;
use model::random::Random;
use model::Edition;
use rekwonuda::{BlockId, Fault, Image, Key, NodeId, Refusal, WrongKey, WrongKeys};

/// Pages of samples/office.pst. Each tree is a root with some leaves, of which these are the first and
/// the last.
const NODE_ROOT: usize = 0xBE00;
const NODE_LEAF: usize = 0xB600;
const BLOCK_ROOT: usize = 0xB400;
const BLOCK_LEAVES: [usize; 2] = [0xAE00, 0xB200];

fn office() -> Vec<u8> {
    let path = concat!(env!("CARGO_MANIFEST_DIR"), "/../../samples/office.pst");
    std::fs::read(path).expect("the sample can be read")
}

fn put(image: &mut [u8], at: usize, number: u64) {
    image[at..at + 8].copy_from_slice(&number.to_le_bytes());
}

/// The sample with some keys of one page changed, and the page sealed again.
fn with_keys(page: usize, size: usize, keys: &[(usize, u64)]) -> Vec<u8> {
    let mut image = office();
    for (entry, key) in keys {
        put(&mut image, page + entry * size, *key);
    }
    seal_page(&mut image, page);
    image
}

fn check(image: &[u8], tree: Tree) -> Result<(), Refusal> {
    match tree {
        Tree::Nodes => Image::new(image).check_nodes(),
        Tree::Blocks => Image::new(image).check_blocks(),
    }
}

fn named(image: &[u8], tree: Tree, refusal: &Refusal) -> Option<WrongKey> {
    match tree {
        Tree::Nodes => Image::new(image).wrong_node_key(refusal),
        Tree::Blocks => Image::new(image).wrong_block_key(refusal),
    }
}

/// The key that the check of a tree finds at fault.
fn found(image: &[u8], tree: Tree) -> WrongKey {
    let refusal = check(image, tree).expect_err("a key is at fault");
    let wrong = named(image, tree, &refusal).expect("the entry is found");
    assert_eq!(wrong.refusal(), refusal);
    wrong
}

fn key(number: u64) -> Key {
    Key {
        stored: number,
        compared: number,
    }
}

/// The fault, the page and its level, its entries and the one at fault, and the page's range.
type Told = (Fault, usize, u8, usize, usize, u64, Option<u64>);

fn told(wrong: &WrongKey) -> Told {
    let page = wrong.page as usize;
    let (level, entries, entry) = (wrong.level, wrong.entries, wrong.entry);
    (
        wrong.fault,
        page,
        level,
        entries,
        entry,
        wrong.from,
        wrong.to,
    )
}

#[test]
fn a_shuffled_page_shows_both_keys() {
    let page = NODE_LEAF;
    let exchanged = with_keys(page, 32, &[(3, 0x12E), (4, 0x12D)]);
    let wrong = found(&exchanged, Tree::Nodes);
    let expected = (Fault::KeyOrder, page, 0, 15, 4, 0x21, Some(0x802D));
    assert_eq!(told(&wrong), expected);
    assert_eq!((wrong.key, wrong.before), (key(0x12D), Some(key(0x12E))));
}

#[test]
fn a_root_page_may_hold_every_key() {
    let wrong = found(&with_keys(NODE_ROOT, 24, &[(1, 0x21)]), Tree::Nodes);
    let expected = (Fault::KeyOrder, NODE_ROOT, 1, 4, 1, 0, None);
    assert_eq!(told(&wrong), expected);
    assert_eq!((wrong.key, wrong.before), (key(0x21), Some(key(0x21))));
}

#[test]
fn a_key_outside_the_range_shows_the_range() {
    let page = NODE_LEAF;
    let wrong = found(&with_keys(page, 32, &[(14, 0x802D)]), Tree::Nodes);
    let expected = (Fault::KeyRange, page, 0, 15, 14, 0x21, Some(0x802D));
    assert_eq!(told(&wrong), expected);
    assert_eq!((wrong.key, wrong.before), (key(0x802D), Some(key(0x692))));

    let page = BLOCK_LEAVES[1];
    let wrong = found(&with_keys(page, 24, &[(0, 0xA0)]), Tree::Blocks);
    let expected = (Fault::KeyRange, page, 0, 5, 0, 0xA4, None);
    assert_eq!(told(&wrong), expected);
    assert_eq!((wrong.key, wrong.before), (key(0xA0), None));
}

#[test]
fn keys_are_told_as_stored_and_as_compared() {
    let page = NODE_LEAF;
    let stored = 0xABCD_0000_0000_0061;
    let wrong = found(&with_keys(page, 32, &[(2, stored)]), Tree::Nodes);
    assert_eq!((wrong.fault, wrong.entry), (Fault::KeyOrder, 2));
    let compared = 0x61;
    assert_eq!(wrong.key, Key { stored, compared });

    let page = BLOCK_LEAVES[0];
    let wrong = found(&with_keys(page, 24, &[(4, 0x15), (5, 0x14)]), Tree::Blocks);
    assert_eq!((wrong.fault, wrong.entry), (Fault::KeyOrder, 5));
    let (stored, compared) = (0x15, 0x14);
    assert_eq!(wrong.before, Some(Key { stored, compared }));
    assert_eq!(wrong.key, key(0x14));
}

#[test]
fn the_ends_of_a_range_are_compared_without_bit_0() {
    let mut image = with_keys(BLOCK_ROOT, 24, &[(1, 0x55)]);
    assert_eq!(check(&image, Tree::Blocks), Ok(()));
    put(&mut image, BLOCK_LEAVES[0] + 19 * 24, 0x55);
    seal_page(&mut image, BLOCK_LEAVES[0]);
    let wrong = found(&image, Tree::Blocks);
    assert_eq!((wrong.fault, wrong.entry), (Fault::KeyRange, 19));
    assert_eq!((wrong.from, wrong.to), (0x4, Some(0x54)));
}

/// The page is accepted where it is referred to first.
#[test]
fn of_two_references_the_one_that_is_refused_is_told() {
    let mut image = office();
    let reference = NODE_ROOT + 8..NODE_ROOT + 24;
    image.copy_within(reference, NODE_ROOT + 24 + 8);
    seal_page(&mut image, NODE_ROOT);
    let wrong = found(&image, Tree::Nodes);
    let range = (0x802D, Some(0x80A2));
    let expected = (Fault::KeyRange, NODE_LEAF, 0, 15, 0, range.0, range.1);
    assert_eq!(told(&wrong), expected);
}

/// Of pages of one tree, the one that an entry of another refers to.
fn child<'a>(built: &'a Built, page: &PlacedPage, entry: usize) -> &'a PlacedPage {
    let at = page.offset + 24 * entry + 16;
    let offset = u64::from_le_bytes(built.image[at..at + 8].try_into().unwrap());
    let mut pages = built.pages.iter();
    let found = pages.find(|page| page.offset as u64 == offset);
    found.expect("the reference leads to a page")
}

#[test]
fn a_range_ends_where_the_range_above_it_ends() {
    let plan = Plan {
        bare_nodes: 500,
        node_level: 2,
        ..Plan::default()
    };
    let built = build(7, &plan);
    let mut nodes = built.pages.iter().filter(|page| page.tree == Tree::Nodes);
    let root = nodes.find(|page| page.is_root).unwrap();
    let index = child(&built, root, 0);
    let leaf = child(&built, index, index.keys.len() - 1);
    let (last, end) = (leaf.keys.len() - 1, root.keys[1]);
    let mut image = built.image.clone();
    put(&mut image, leaf.offset + 32 * last, end);
    seal_page(&mut image, leaf.offset);
    let wrong = found(&image, Tree::Nodes);
    let from = *index.keys.last().unwrap();
    let entries = leaf.keys.len();
    let expected = (
        Fault::KeyRange,
        leaf.offset,
        0,
        entries,
        last,
        from,
        Some(end),
    );
    assert_eq!(told(&wrong), expected);
}

fn is_by_key(refusal: &Refusal) -> bool {
    matches!(refusal.fault, Fault::KeyOrder | Fault::KeyRange)
}

fn wrong_keys(image: &[u8], tree: Tree) -> WrongKeys<'_> {
    match tree {
        Tree::Nodes => Image::new(image).wrong_node_keys(),
        Tree::Blocks => Image::new(image).wrong_block_keys(),
    }
}

fn find(image: &[u8], tree: Tree, number: u64) -> Result<(), Refusal> {
    let image = Image::new(image);
    match tree {
        Tree::Nodes => image.find_node(NodeId(number as u32)).map(drop),
        Tree::Blocks => image.find_block(BlockId(number)).map(drop),
    }
}

/// Holds a key at fault to the library, which refuses a lookup of the lowest and of the highest number
/// that the page may hold; and to the rule that its fault names.
fn hold_key(image: &[u8], tree: Tree, wrong: &WrongKey) {
    let highest = match (wrong.to, tree) {
        (Some(to), _) => to - 1,
        (None, Tree::Nodes) => u32::MAX.into(),
        (None, Tree::Blocks) => u64::MAX,
    };
    for number in [wrong.from, highest] {
        assert_eq!(find(image, tree, number), Err(wrong.refusal()), "{wrong:?}");
    }
    let key = wrong.key.compared;
    let is_above = wrong.before.is_none_or(|before| before.compared < key);
    let is_inside = wrong.from <= key && wrong.to.is_none_or(|to| key < to);
    match wrong.fault {
        Fault::KeyOrder => assert!(!is_above && wrong.entry > 0, "{wrong:?}"),
        _ => assert!(is_above && !is_inside, "{wrong:?}"),
    }
}

/// Holds a refusal to what is told of it; says whether it is by a key.
fn hold(image: &[u8], tree: Tree, answer: Result<(), Refusal>) -> bool {
    let Err(refusal) = answer else {
        return false;
    };
    let wrong = named(image, tree, &refusal).map(|wrong| wrong.refusal());
    assert_eq!(wrong, is_by_key(&refusal).then_some(refusal));
    wrong.is_some()
}

/// Holds the check of a tree: where it is refused by a key, that is the first key at fault. Says how
/// many there are.
fn hold_check(image: &[u8], tree: Tree) -> usize {
    let answer = check(image, tree);
    let mut wrong_keys = wrong_keys(image, tree).peekable();
    let first = wrong_keys.peek().map(WrongKey::refusal);
    match answer {
        Ok(()) => assert_eq!(first, None),
        Err(refusal) if is_by_key(&refusal) => assert_eq!(first, Some(refusal)),
        Err(_) => {}
    }
    hold(image, tree, answer);
    wrong_keys
        .map(|wrong| hold_key(image, tree, &wrong))
        .count()
}

/// Holds every lookup and listing from some numbers; says how many are refused by a key.
fn hold_lookups(image: &[u8], nodes: &[u64], blocks: &[u64]) -> usize {
    let of = Image::new(image);
    let nodes = nodes.iter().map(|node| NodeId(*node as u32));
    let blocks = blocks.iter().map(|block| BlockId(*block));
    let of_nodes = nodes.flat_map(|node| {
        let listed = of.next_node(NodeId(node.0.wrapping_add(1))).map(drop);
        [of.find_node(node).map(drop), listed]
    });
    let of_blocks = blocks.flat_map(|block| {
        let listed = of.next_block(BlockId(block.0.wrapping_add(1))).map(drop);
        [of.find_block(block).map(drop), listed]
    });
    let refused = of_nodes.filter(|answer| hold(image, Tree::Nodes, *answer));
    let refused = refused.count();
    refused
        + of_blocks
            .filter(|answer| hold(image, Tree::Blocks, *answer))
            .count()
}

/// Every kind of damage, alone and on top of another one. Says how many keys at fault were met, and
/// how many lookups were refused by one.
fn hold_damages(built: &Built, seed: u64) -> (usize, usize) {
    let (mut keys, mut lookups) = (0, 0);
    let mut random = Random::new(seed);
    for damage in [HEADER, PAGE, KEYS, WHOLE].concat() {
        let once = spoil(built, damage, true, &mut random);
        let other = random.pick(PAGE).copied().unwrap();
        let twice = spoil_again(built, once.clone(), other, true, &mut random);
        for Spoilt {
            image,
            nodes,
            blocks,
        } in [once, twice]
        {
            keys += hold_check(&image, Tree::Nodes) + hold_check(&image, Tree::Blocks);
            lookups += hold_lookups(&image, &nodes, &blocks);
        }
    }
    (keys, lookups)
}

#[test]
fn a_refusal_by_a_key_is_told_on_damaged_images() {
    for edition in Edition::BOTH {
        told_on_damaged_images(edition);
    }
}

fn told_on_damaged_images(edition: Edition) {
    let (mut keys, mut lookups) = (0, 0);
    for seed in 0..40 {
        let built = build_small_of(edition, seed, seed % 2 == 1);
        let met = hold_damages(&built, seed);
        keys += met.0;
        lookups += met.1;
    }
    assert!(keys > 500 && lookups > 500, "{keys} {lookups}");
}

#[test]
fn a_refusal_of_another_kind_or_place_names_no_key() {
    let image = with_keys(NODE_LEAF, 32, &[(2, 0x61)]);
    let refusal = check(&image, Tree::Nodes).unwrap_err();
    let of = Image::new(&image);
    assert!(of.wrong_node_key(&refusal).is_some());
    assert_eq!(of.wrong_block_key(&refusal), None);
    assert_eq!(Image::new(&office()).wrong_node_key(&refusal), None);
    for other in [
        Refusal {
            fault: Fault::KeyRange,
            ..refusal
        },
        Refusal {
            fault: Fault::PageChecksum,
            ..refusal
        },
        Refusal {
            place: u64::MAX,
            ..refusal
        },
        Refusal {
            more: u64::MAX,
            ..refusal
        },
    ] {
        assert_eq!(of.wrong_node_key(&other), None, "{other}");
    }
    assert_eq!(Image::new(b"").wrong_node_key(&refusal), None);
}

/// The sample with a leaf whose keys are at fault, and which an edit then lets fail an earlier test.
fn refused_earlier(number: u64, edit: impl Fn(&mut Vec<u8>)) {
    let mut image = with_keys(NODE_LEAF, 32, &[(2, 0x61)]);
    edit(&mut image);
    let refusal = check(&image, Tree::Nodes).unwrap_err();
    assert_eq!(refusal.number(), number);
    assert_eq!(wrong_keys(&image, Tree::Nodes).next(), None, "{refusal}");
}

#[test]
fn the_other_tests_of_a_page_come_before_its_keys() {
    let leaf = NODE_LEAF;
    // In the first bytes, at no multiple of 64, and in the image but past the end of the file.
    for (offset, end) in [(0x4200, 0xC000), (0xC020, 0xC240), (0xC040, 0xC23F)] {
        refused_earlier(6, |image| {
            image.resize(0xC240, 0);
            put(image, 184, end);
            seal_header(image);
            image.copy_within(leaf..leaf + 512, offset);
            seal_page(image, offset);
            put(image, NODE_ROOT + 16, offset as u64);
            seal_page(image, NODE_ROOT);
        });
    }
    for (at, number) in [(496, 7), (497, 7), (498, 8), (504, 8), (479, 9), (500, 9)] {
        refused_earlier(number, |image| image[leaf + at] ^= 1);
    }
    for counts in [
        [16, 16, 32, 0],
        [15, 14, 32, 0],
        [15, 15, 24, 0],
        [15, 15, 24, 1],
    ] {
        refused_earlier(10, |image| {
            image[leaf + 488..leaf + 492].copy_from_slice(&counts);
            seal_page(image, leaf);
        });
    }
    refused_earlier(10, |image| {
        put(image, NODE_ROOT + 24, 0x21);
        image[NODE_ROOT + 491] = 8;
        seal_page(image, NODE_ROOT);
    });
}

/// The offset of the page of that level in `ladder`.
fn rung(level: usize) -> usize {
    0x4400 + 512 * level
}

/// A page of the block tree, all 20 entries of which refer to the page of the level below.
fn put_rung(image: &mut [u8], level: usize) {
    let page = rung(level);
    let below = level.saturating_sub(1);
    image[page..page + 512].fill(0);
    for entry in 0..20 {
        let at = page + 24 * entry;
        put(image, at, 2 * entry as u64 * 20_u64.pow(level as u32));
        put(image, at + 8, below as u64);
        put(image, at + 16, rung(below) as u64);
    }
    image[page + 488..page + 492].copy_from_slice(&[20, 20, 24, level as u8]);
    image[page + 496..page + 498].fill(0x80);
    put(image, page + 504, level as u64);
    seal_page(image, page);
}

/// A block tree with one page for each level. Were every reference followed, they would lead to 20^7
/// leaves.
fn ladder() -> Vec<u8> {
    let mut image = build(1, &Plan::default()).image;
    image.resize(rung(8), 0);
    for level in 0..8 {
        put_rung(&mut image, level);
    }
    put(&mut image, 184, rung(8) as u64);
    put(&mut image, 232, 7);
    put(&mut image, 240, rung(7) as u64);
    seal_header(&mut image);
    image
}

#[test]
fn each_page_is_entered_once() {
    let image = ladder();
    let wrong = found(&image, Tree::Blocks);
    let expected = (Fault::KeyRange, rung(0), 0, 20, 0, 0x28, Some(0x50));
    assert_eq!(told(&wrong), expected);
    let pages: Vec<u64> = Image::new(&image)
        .wrong_block_keys()
        .map(|wrong| wrong.page)
        .collect();
    for level in 0..7 {
        let refused = pages.iter().filter(|page| **page == rung(level) as u64);
        assert_eq!(refused.count(), 19);
    }
    assert_eq!(pages.len(), 7 * 19);
}
