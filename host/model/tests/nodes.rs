//! A list of nodes in one call: every place is what the lookup of its number answers, and nothing else
//! is written.

use model::build::lists::{deep, mixed};
use model::build::{build, build_small, Built, PlacedPage, Plan};
use model::damage::{spoil, Damage, END, HEADER, KEYS, PAGE};
use model::edition::Edition;
use model::nodes::in_words;
use model::page::Tree;
use model::random::Random;
use model::{find_node, find_nodes, Answer, Lookup, Node, Refusal};
use std::collections::BTreeSet;

/// The rules' bounds, not the model's.
const MOST_NODES: usize = 4096;
const WORDS: usize = 9;

/// What a word of the area is before the call.
const FRESH: u64 = 0x5A17_5A17_5A17_5A17;

const ACCEPTED: Answer<()> = Ok(());

fn short(needed: usize) -> Answer<()> {
    Err(Refusal {
        number: 17,
        place: 0,
        more: needed as u64,
    })
}

/// The answer, and the area of so many words behind it.
fn ask(image: &[u8], nodes: &[u64], words: usize) -> (Answer<()>, Vec<u64>) {
    let mut area = vec![FRESH; words];
    let answer = find_nodes(image, nodes, &mut area);
    (answer, area)
}

/// Asked one by one, with fresh words behind the last place.
fn one_by_one(image: &[u8], nodes: &[u64], words: usize) -> Vec<u64> {
    let places = nodes.iter().map(|&node| in_words(find_node(image, node)));
    let mut area: Vec<_> = places.flatten().collect();
    area.resize(words, FRESH);
    area
}

fn assert_answered(image: &[u8], nodes: &[u64], words: usize) {
    let expected = one_by_one(image, nodes, words);
    assert_eq!(ask(image, nodes, words), (ACCEPTED, expected));
}

fn assert_refused(image: &[u8], nodes: &[u64], words: usize, more: usize) {
    assert_eq!(ask(image, nodes, words), (short(more), vec![FRESH; words]));
}

/// Numbers that are there and numbers that are not, so many in all.
fn list(built: &Built, length: usize) -> Vec<u64> {
    let known = built.node_numbers();
    let numbers = known.iter().flat_map(|node| [node + 1, *node]);
    numbers.cycle().take(length).collect()
}

fn some_nodes() -> Built {
    let plan = Plan {
        node_level: 2,
        bare_nodes: 30,
        ..Plan::default()
    };
    build(5, &plan)
}

#[test]
fn words_of_a_place() {
    let refused = |refusal| in_words(Err(refusal));
    assert_eq!(
        refused(Refusal::new(9, 0x4C00)),
        [9, 0x4C00, 0, 0, 0, 0, 0, 0, 0]
    );
    assert_eq!(
        refused(Refusal::key_range(0x4E00, 3)),
        [21, 0x4E00, 3, 0, 0, 0, 0, 0, 0]
    );
    let absent = in_words(Ok(Lookup::Absent { pages: 2 }));
    assert_eq!(absent, [0, 0, 0, 0, 2, 0, 0, 0, 0]);
    let entry = Node {
        node: 0x8022,
        data: 0x1519,
        subnode: 0x77,
        parent: 0x122,
    };
    let found = in_words(Ok(Lookup::Found { pages: 3, entry }));
    assert_eq!(found, [0, 0, 0, 1, 3, 0x8022, 0x1519, 0x77, 0x122]);
}

/// One written out, without the help of the lookup.
#[test]
fn places_of_a_list() {
    let built = mixed(Edition::Bits64);
    let Node {
        data,
        subnode,
        parent,
        ..
    } = built.nodes[0];
    let [stale, last] = [0x8182, 0x8283_65B7].map(|first| leaf(&built, first).offset as u64);
    let nodes = [0x2D, 0x8063, 0x81A2, u64::from(u32::MAX), 1];
    let expected = [
        [0, 0, 0, 1, 3, 0x2D, data, subnode, u64::from(parent)],
        [0, 0, 0, 0, 3, 0, 0, 0, 0],
        [21, stale, 3, 0, 0, 0, 0, 0, 0],
        [9, last, 0, 0, 0, 0, 0, 0, 0],
        [0, 0, 0, 0, 1, 0, 0, 0, 0],
    ];
    let (answer, area) = ask(&built.image, &nodes, 5 * WORDS);
    assert_eq!((answer, area), (ACCEPTED, expected.concat()));
}

#[test]
fn lengths_of_a_list() {
    let built = some_nodes();
    for length in [0, 1, 2, 31, MOST_NODES - 1, MOST_NODES] {
        let nodes = list(&built, length);
        assert_answered(&built.image, &nodes, WORDS * length);
        assert_answered(&built.image, &nodes, WORDS * (length + 2));
    }
    for length in [MOST_NODES + 1, MOST_NODES + 2, 3 * MOST_NODES] {
        let nodes = list(&built, length);
        assert_refused(&built.image, &nodes, WORDS * length, 4096);
    }
}

/// Over 4,096 is tried before the area.
#[test]
fn list_before_area() {
    let built = some_nodes();
    let nodes = list(&built, MOST_NODES + 1);
    for words in [0, 1, WORDS, WORDS * MOST_NODES, WORDS * nodes.len() - 1] {
        assert_refused(&built.image, &nodes, words, 4096);
    }
}

#[test]
fn lengths_of_an_area() {
    let built = some_nodes();
    for length in [1, 2, 7, MOST_NODES] {
        let nodes = list(&built, length);
        let exact = WORDS * length;
        for words in [0, 1, exact - WORDS, exact - 8, exact - 1] {
            assert_refused(&built.image, &nodes, words, length);
        }
        for over in 0..=2 * WORDS {
            assert_answered(&built.image, &nodes, exact + over);
        }
    }
}

/// It is answered on anything, and in an area that has no place.
#[test]
fn empty_list() {
    let built = some_nodes();
    let images = [&built.image[..], &built.image[..563], &[]];
    for image in images {
        for words in [0, 1, 8, 9, 20] {
            assert_eq!(ask(image, &[], words), (ACCEPTED, vec![FRESH; words]));
        }
    }
}

#[test]
fn repeated_numbers() {
    let built = mixed(Edition::Bits64);
    let numbers = [0x8042, 0x8043, 0x8182, 0x8283_65B7];
    for number in numbers {
        let nodes = [number; 40];
        let (_, area) = ask(&built.image, &nodes, 40 * WORDS);
        let place = in_words(find_node(&built.image, number));
        assert_eq!(area, place.repeat(40));
    }
    // Apart from one another, and in any order.
    let mut nodes: Vec<_> = numbers.into_iter().cycle().take(30).collect();
    assert_answered(&built.image, &nodes, 30 * WORDS);
    nodes.reverse();
    assert_answered(&built.image, &nodes, 30 * WORDS);
    nodes.sort_unstable();
    assert_answered(&built.image, &nodes, 30 * WORDS);
}

#[test]
fn low_four_bytes() {
    let built = mixed(Edition::Bits64);
    let nodes = list(&built, 28);
    let (answer, area) = ask(&built.image, &nodes, 28 * WORDS);
    assert_eq!(answer, ACCEPTED);
    for high in [1, 0x8000_0000, 0xFFFF_FFFF] {
        let nodes: Vec<_> = nodes.iter().map(|node| node | high << 32).collect();
        assert_eq!(
            ask(&built.image, &nodes, 28 * WORDS),
            (ACCEPTED, area.clone())
        );
    }
}

/// A refused header is told in every place and not by the call.
#[test]
fn refused_headers() {
    let built = some_nodes();
    let nodes = list(&built, 20);
    let mut met = BTreeSet::new();
    let ways = HEADER
        .iter()
        .flat_map(|&damage| [(damage, true), (damage, false)]);
    for (damage, sealed) in ways {
        let image = spoil(&built, damage, sealed, &mut Random::new(1)).image;
        let Err(refusal) = model::header(&image) else {
            continue;
        };
        met.insert(refusal.number);
        let expected = in_words(Err(refusal)).repeat(20);
        assert_eq!(ask(&image, &nodes, 20 * WORDS), (ACCEPTED, expected));
        // The call's own refusals come all the same.
        assert_refused(&image, &nodes, 20 * WORDS - 1, 20);
        assert_refused(&image, &list(&built, 4097), 4097 * WORDS, 4096);
    }
    assert_eq!(met, (2..=5).collect());
    let expected = [1, 0, 0, 0, 0, 0, 0, 0, 0].repeat(20);
    assert_eq!(ask(&[], &nodes, 20 * WORDS), (ACCEPTED, expected));
}

fn leaf(built: &Built, first: u64) -> &PlacedPage {
    let is_it = |page: &&PlacedPage| {
        (page.tree, page.level) == (Tree::Nodes, 0) && page.keys.first() == Some(&first)
    };
    built.pages.iter().find(is_it).expect("that leaf")
}

/// A damaged leaf is refused in the places of its numbers alone.
#[test]
fn damaged_leaf() {
    let built = deep(Edition::Bits64);
    let sound = one_by_one(&built.image, &built.node_numbers(), 14 * WORDS);
    let leaves = built.pages.iter();
    for leaf in leaves.filter(|page| (page.tree, page.level) == (Tree::Nodes, 0)) {
        let mut image = built.image.clone();
        image[leaf.offset + 17] ^= 8;
        let (answer, area) = ask(&image, &built.node_numbers(), 14 * WORDS);
        assert_eq!(answer, ACCEPTED);
        let places = area.chunks(WORDS).zip(sound.chunks(WORDS));
        for (node, (place, sound)) in built.node_numbers().iter().zip(places) {
            if leaf.keys.contains(node) {
                assert_eq!(place, [9, leaf.offset as u64, 0, 0, 0, 0, 0, 0, 0]);
            } else {
                assert_eq!(place, sound);
            }
        }
    }
}

/// A damaged root is refused in every place.
#[test]
fn damaged_root() {
    let mut built = deep(Edition::Bits64);
    let is_root = |page: &&PlacedPage| page.tree == Tree::Nodes && page.is_root;
    let root = built.pages.iter().find(is_root).expect("a root").offset;
    built.image[root + 3] ^= 1;
    let (answer, area) = ask(&built.image, &built.node_numbers(), 14 * WORDS);
    assert_eq!(answer, ACCEPTED);
    let place = [9, root as u64, 0, 0, 0, 0, 0, 0, 0];
    assert_eq!(area, place.repeat(14));
}

/// Some damage to some images: what comes in the places, and that it comes one by one too.
#[test]
fn damaged_images() {
    let mut met = BTreeSet::new();
    for seed in 0..120 {
        let built = build_small(seed);
        let mut random = Random::new(seed);
        for &damage in HEADER.iter().chain(PAGE).chain(KEYS).chain(END) {
            let sealed = damage != Damage::PageByte;
            let image = spoil(&built, damage, sealed, &mut random).image;
            let nodes = list(&built, 2 * built.nodes.len());
            assert_answered(&image, &nodes, WORDS * nodes.len() + 3);
            let refusals = nodes
                .iter()
                .filter_map(|&node| find_node(&image, node).err());
            met.extend(refusals.map(|refusal| refusal.number));
        }
    }
    assert_eq!(met, (1..=11).chain([21]).collect());
}

/// What the chosen images are made for: one list meets all, and one goes through every leaf.
#[test]
fn chosen_images() {
    let images = model::images::images();
    let named = |name: &str| {
        let mut images = images.iter();
        images.find(|image| image.name == name).expect("that image")
    };
    let met = |name: &str| -> BTreeSet<_> {
        let image = named(name);
        let (answer, area) = ask(&image.bytes, &image.nodes, WORDS * image.nodes.len());
        assert_eq!(answer, ACCEPTED);
        let met = |place: &[u64]| (place[0], place[3], place[4]);
        area.chunks(WORDS).map(met).collect()
    };
    // Refusal, found, pages.
    let mixed = [
        (0, 0, 1),
        (0, 0, 2),
        (0, 0, 3),
        (0, 1, 3),
        (9, 0, 0),
        (21, 0, 0),
    ];
    assert_eq!(met("list-mixed"), mixed.into());
    assert_eq!(
        met("list-level-3"),
        [(0, 0, 1), (0, 0, 4), (0, 1, 4)].into()
    );
    let leaves = deep(Edition::Bits64).pages.into_iter();
    let leaves = leaves.filter(|page| (page.tree, page.level) == (Tree::Nodes, 0));
    assert_eq!(leaves.count(), 5);
}
