//! Many nodes at once: each place is what the lookup of that number alone answers.

mod images;

use images::{sample, sound};
use model::build::{build, Built, PlacedPage, Plan};
use model::page::Tree;
use model::random::Random;
use rekwonuda::{Fault, Image, Lookup, Node, NodeId, Refusal};

type Answer = Result<Lookup<Node>, Refusal>;

/// The answers to the numbers, each of them held to the lookup of that number alone.
fn held(image: &[u8], nodes: &[u64]) -> Vec<Answer> {
    let image = Image::new(image);
    let answers = image.find_nodes(nodes);
    let single = |node: &u64| image.find_node(NodeId(*node as u32));
    let singles: Vec<Answer> = nodes.iter().map(single).collect();
    assert!(answers == singles, "{} nodes", nodes.len());
    answers
}

/// A tree of level 2 with 6,000 nodes.
fn many() -> Built {
    let plan = Plan {
        bare_nodes: 6_000,
        tidy: true,
        ..Plan::default()
    };
    build(3, &plan)
}

/// Numbers in any order: most are there, some are not, and some come twice.
fn drawn(built: &Built, count: usize) -> Vec<u64> {
    let known = built.node_numbers();
    let mut random = Random::new(count as u64);
    let mut draw = || match random.one_in(4) {
        true => random.number(),
        false => *random.pick(&known).expect("it has nodes"),
    };
    (0..count).map(|_| draw()).collect()
}

fn found(answers: &[Answer]) -> usize {
    let entry = |answer: &&Answer| answer.is_ok_and(|lookup| lookup.entry.is_some());
    answers.iter().filter(entry).count()
}

fn absent(answers: &[Answer]) -> usize {
    let none = |answer: &&Answer| answer.is_ok_and(|lookup| lookup.entry.is_none());
    answers.iter().filter(none).count()
}

#[test]
fn a_list_of_any_length_is_answered_place_by_place() {
    let built = many();
    for count in [0, 1, 2, 4_095, 4_096, 4_097, 8_192, 8_193, 10_000] {
        let answers = held(&built.image, &drawn(&built, count));
        assert_eq!(answers.len(), count);
        if count > 2 {
            assert!(found(&answers) > count / 2 && absent(&answers) > count / 8);
            assert_eq!(found(&answers) + absent(&answers), count);
        }
    }
}

#[test]
fn the_nodes_that_were_built_are_found_in_the_order_asked() {
    let built = many();
    let mut asked = built.node_numbers();
    asked.reverse();
    let answers = held(&built.image, &asked);
    let found = answers.iter().map(|answer| answer.unwrap().entry.unwrap());
    let ids: Vec<u64> = found.map(|node| node.id.0.into()).collect();
    assert_eq!(ids, asked);
}

#[test]
fn a_number_may_come_twice_and_counts_by_its_low_four_bytes() {
    let built = sound();
    let node = built.node_numbers()[5];
    let high = node | 0xFFFF_FFFF << 32;
    let answers = held(&built.image, &[node, high, node, high]);
    assert!(answers.iter().all(|answer| *answer == answers[0]));
    assert_eq!((found(&answers), answers[0].unwrap().pages), (4, 3));
    let often = held(&built.image, &vec![high; 5_000]);
    assert!(often.iter().all(|answer| *answer == answers[0]));
}

#[test]
fn the_sample_has_a_found_an_absent_and_a_refused_node() {
    let bytes = std::fs::read(sample()).unwrap();
    let answers = held(&bytes, &[0x122, 0x20, 0x804F]);
    assert_eq!((found(&answers), absent(&answers)), (1, 1));
    let refusal = Refusal {
        fault: Fault::PageOffset,
        place: 28_160,
        more: 0,
    };
    assert_eq!(answers[2], Err(refusal));
}

fn leaves(built: &Built) -> Vec<&PlacedPage> {
    let is_leaf = |page: &&PlacedPage| page.tree == Tree::Nodes && page.level == 0;
    built.pages.iter().filter(is_leaf).collect()
}

#[test]
fn a_damaged_leaf_is_refused_in_the_places_of_its_nodes_alone() {
    let built = many();
    let leaves = leaves(&built);
    let leaf = leaves[leaves.len() / 2];
    let mut image = built.image.clone();
    image[leaf.offset + 9] ^= 1;
    let asked = built.node_numbers();
    let answers = held(&image, &asked);
    let refusal = Refusal {
        fault: Fault::PageChecksum,
        place: leaf.offset as u64,
        more: 0,
    };
    for (answer, node) in answers.iter().zip(&asked) {
        let is_there = leaf.keys.contains(node);
        assert_eq!(answer.err(), is_there.then_some(refusal), "{node:#x}");
    }
    assert_eq!(found(&answers), asked.len() - leaf.keys.len());
}

#[test]
fn a_refused_header_stands_in_each_place() {
    let mut built = many();
    built.image[100] ^= 1;
    let asked = drawn(&built, 4_100);
    for (image, number, place) in [(&built.image[..], 4, 4), (b"", 1, 0), (&[0; 564], 2, 0)] {
        let answers = held(image, &asked);
        for refusal in answers.iter().map(|answer| answer.unwrap_err()) {
            assert_eq!((refusal.number(), refusal.place), (number, place));
        }
        assert_eq!(Image::new(image).find_nodes(&[]), []);
    }
}
