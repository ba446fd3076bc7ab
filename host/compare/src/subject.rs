//! What is lent to the calls: built, damaged and random images, heaps and plain bytes, each with the
//! numbers worth asking for.

mod tables;

use crate::ask::{Call, ON_BYTES, ON_HEAP, ON_IMAGE};
use crate::tables::draw::Known;
use crate::tables::LENGTHS;
use model::build::heaps::{
    bare_heap, context_of_length, empty_items, property_context, HeapPlan, PlacedHeap,
};
use model::build::seal::{seal_header, set_end};
use model::build::{build, build_small_of, Built, Plan, MOST_SMALL};
use model::damage::heap::{spoil_heap, ALL};
use model::damage::{spoil, spoil_again, Damage, BLOCK, EDITION, END, HEADER, KEYS, PAGE, WHOLE};
use model::edition::Edition;
use model::random::Random;

pub struct Subject {
    /// How it was made, for the report of a disagreement.
    pub name: String,
    pub bytes: Vec<u8>,
    /// The calls to choose from.
    pub calls: &'static [Call],
    pub nodes: Vec<u64>,
    pub blocks: Vec<u64>,
    /// Item numbers and property ids.
    pub items: Vec<u64>,
    pub ids: Vec<u64>,
    pub table: Known,
    /// Whether a list of nodes is as long as it may be, or longer by one.
    pub long_lists: bool,
    /// How many calls it is good for.
    pub asks: usize,
}

impl Subject {
    fn new(name: String, bytes: Vec<u8>, calls: &'static [Call]) -> Self {
        Self {
            name,
            bytes,
            calls,
            nodes: Vec::new(),
            blocks: Vec::new(),
            items: Vec::new(),
            ids: Vec::new(),
            table: Known::default(),
            long_lists: false,
            asks: 8,
        }
    }
}

/// Some subjects that belong together, made from one seed.
pub fn subjects(seed: u64) -> Vec<Subject> {
    let mut random = Random::new(seed);
    match random.below(86) {
        0..=31 => built_images(&mut random),
        32..=34 | 78..=80 => wide_images(&mut random),
        75..=77 => images_with_other_ends(&mut random),
        81..=83 => images_about_most(&mut random),
        84..=85 => images_with_other_headers(&mut random),
        35..=38 => vec![random_image(&mut random)],
        39..=54 => heaps(&mut random),
        55..=56 => vec![random_heap(&mut random)],
        57..=66 => tables::tables(&mut random),
        _ => vec![plain_bytes(&mut random)],
    }
}

/// One edition as often as the other.
fn edition(random: &mut Random) -> Edition {
    random.one_of(Edition::BOTH)
}

fn small_image(random: &mut Random, loose_bit_0: bool) -> Built {
    build_small_of(edition(random), random.number(), loose_bit_0)
}

fn built_images(random: &mut Random) -> Vec<Subject> {
    let loose_bit_0 = random.one_in(2);
    let built = small_image(random, loose_bit_0);
    let whole = Subject {
        nodes: built.node_numbers(),
        blocks: built.block_numbers(),
        ..Subject::new("built".into(), built.image.clone(), ON_IMAGE)
    };
    let damaged = (0..12).map(|_| {
        let first = damage(random);
        damaged_image(&built, first, random)
    });
    std::iter::once(whole).chain(damaged).collect()
}

/// Keys at fault in images that have more index pages than small ones, and more entries in each.
fn wide_images(random: &mut Random) -> Vec<Subject> {
    let edition = edition(random);
    let built = wide_image(random, edition);
    let damaged = (0..12).map(|_| {
        let damage = random.pick(KEYS).copied().unwrap_or(KEYS[0]);
        damaged_image(&built, (damage, true), random)
    });
    damaged.collect()
}

/// Pages and blocks at the end of the file, over it and behind it, in images that are sound otherwise.
fn images_with_other_ends(random: &mut Random) -> Vec<Subject> {
    let built = small_image(random, true);
    let damaged = (0..12).map(|_| {
        let damage = random.one_of([
            Damage::PageBehind,
            Damage::BlockBehind,
            Damage::BlockBehind,
            Damage::EndNearPage,
        ]);
        damaged_image(&built, (damage, true), random)
    });
    damaged.collect()
}

/// Versions of the other edition and of none, and headers whose fields stand where the other has them.
fn images_with_other_headers(random: &mut Random) -> Vec<Subject> {
    let built = small_image(random, false);
    let damaged = (0..12).map(|_| {
        let damage = random.one_of([
            Damage::Version,
            Damage::Version,
            Damage::OtherEdition,
            Damage::OtherSentinel,
            Damage::OtherRoots,
            Damage::OtherEnd,
        ]);
        damaged_image(&built, (damage, true), random)
    });
    damaged.collect()
}

/// Blocks of the most bytes in either edition, a little less and one more.
fn images_about_most(random: &mut Random) -> Vec<Subject> {
    let built = small_image(random, true);
    let damaged = (0..12).map(|_| {
        let sealed = !random.one_in(8);
        let mut subject = damaged_image(&built, (Damage::SizeAboutMost, sealed), random);
        // None but the block and the nodes at stake.
        subject.calls = &[
            Call::TestBlock,
            Call::ReadBlock,
            Call::ReadNode,
            Call::ReadNode,
        ];
        subject
    });
    damaged.collect()
}

fn wide_image(random: &mut Random, edition: Edition) -> Built {
    let plan = Plan {
        edition,
        method: random.below(3) as u8,
        node_level: random.between(2, 3) as u8,
        block_level: random.between(2, 3) as u8,
        block_nodes: random.between(12, 36),
        most_size: 90,
        wider: 3,
        loose_bit_0: random.one_in(2),
        ..Plan::default()
    };
    build(random.number(), &plan)
}

fn damage(random: &mut Random) -> (Damage, bool) {
    let group = match random.below(22) {
        0 => WHOLE,
        1..=4 => HEADER,
        5..=9 => PAGE,
        10..=11 => KEYS,
        12..=16 => BLOCK,
        17..=18 => EDITION,
        _ => END,
    };
    let damage = random.pick(group).copied().unwrap_or(Damage::AnyByte);
    (damage, !random.one_in(4))
}

/// One damage, and now and then another.
fn damaged_image(built: &Built, first: (Damage, bool), random: &mut Random) -> Subject {
    let (first, sealed) = first;
    let mut name = format!("{first:?} sealed {sealed}");
    let mut spoilt = spoil(built, first, sealed, random);
    if random.one_in(4) {
        let (second, sealed) = damage(random);
        name += &format!(", {second:?} sealed {sealed}");
        spoilt = spoil_again(built, spoilt, second, sealed, random);
    }
    let mut subject = Subject::new(name, spoilt.image, ON_IMAGE);
    subject.nodes = spoilt.nodes;
    subject.blocks = spoilt.blocks;
    if subject.nodes.is_empty() || random.one_in(3) {
        subject
            .nodes
            .extend(built.nodes.iter().map(|node| u64::from(node.node)));
    }
    if subject.blocks.is_empty() || random.one_in(3) {
        subject
            .blocks
            .extend(built.blocks.iter().map(|block| block.number));
    }
    subject
}

fn random_image(random: &mut Random) -> Subject {
    let length = match random.below(4) {
        0 => random.one_of([0, 1, 563, 564, 565, 0x4400, 0x4600, MOST_SMALL]),
        1 => random.below(600),
        _ => random.below(MOST_SMALL + 1),
    };
    let mut bytes = random.bytes(length);
    let headed = length >= 564 && random.one_in(2);
    if headed {
        let plan = Plan {
            edition: edition(random),
            ..Plan::default()
        };
        let head = build(random.number(), &plan).image;
        bytes[..564].copy_from_slice(&head[..564]);
        if random.one_in(2) {
            let layout = plan.edition.layout();
            let roots = layout.header.nodes..layout.header.blocks + 2 * layout.width;
            random.fill(&mut bytes[roots]);
            seal_header(&mut bytes);
        }
        if !random.one_in(4) {
            let end = random.one_of([0, length / 2, length, length, length, length + 1]);
            set_end(&mut bytes, end as u64);
        }
    }
    Subject::new(format!("random image, headed {headed}"), bytes, ON_IMAGE)
}

/// A data tree of the most bytes that a node can have: one block named as often as a tree can.
pub fn widest_image(edition: Edition, seed: u64) -> Subject {
    let plan = Plan {
        edition,
        method: (seed % 3) as u8,
        tree_nodes: 1,
        most_size: usize::MAX,
        most_children: usize::MAX,
        one_child: true,
        loose_bit_0: seed > 0,
        ..Plan::default()
    };
    let built = build(seed, &plan);
    Subject {
        nodes: built.node_numbers(),
        blocks: built.block_numbers(),
        asks: 3,
        ..Subject::new("widest".into(), built.image, &[Call::ReadNode])
    }
}

/// Images of both editions for the longest lists of nodes: as built, and with a page of the node tree at
/// fault.
pub fn images_for_long_lists(seed: u64) -> Vec<Subject> {
    let of = |edition| long_lists(edition, seed);
    Edition::BOTH.into_iter().flat_map(of).collect()
}

fn long_lists(edition: Edition, seed: u64) -> Vec<Subject> {
    let mut random = Random::new(seed);
    let built = wide_image(&mut random, edition);
    let mut images = vec![("as built", built.image.clone())];
    for (name, damage) in [("refused", Damage::PageSum), ("stale", Damage::KeyStale)] {
        images.push((name, with_nodes_at_fault(&built, damage, &mut random)));
    }
    let subject = |(name, bytes): (&str, Vec<u8>)| Subject {
        nodes: built.node_numbers(),
        long_lists: true,
        asks: 6,
        ..Subject::new(format!("long lists, {name}"), bytes, &[Call::FindNodes])
    };
    images.into_iter().map(subject).collect()
}

/// The damage may find a page of either tree, so it is tried until it has found one of this.
fn with_nodes_at_fault(built: &Built, damage: Damage, random: &mut Random) -> Vec<u8> {
    loop {
        let spoilt = spoil(built, damage, true, random).image;
        if model::check_nodes(&spoilt).is_err() {
            return spoilt;
        }
    }
}

fn heap(random: &mut Random) -> PlacedHeap {
    if random.one_in(12) {
        let items = random.one_of([0, 1, 2046, 2047, 2048, 2049]);
        return empty_items(random, items);
    }
    if random.one_in(8) {
        let length = random.one_of(LENGTHS);
        return context_of_length(random, length);
    }
    if random.one_in(6) {
        let items = match random.below(8) {
            0 => 0,
            1 => 200,
            _ => random.below(12),
        };
        return bare_heap(random, items);
    }
    let plan = HeapPlan {
        index_levels: random.below(4) as u8,
        properties: random.below(40),
        most_value: random.one_of([0, 10, 60]),
        tidy: random.one_in(4),
    };
    property_context(random, plan)
}

fn heaps(random: &mut Random) -> Vec<Subject> {
    let heap = heap(random);
    let mut subjects = vec![heap_subject("heap".into(), &heap, heap.block.clone())];
    for _ in 0..10 {
        let damage = random.pick(ALL).copied().unwrap_or(ALL[0]);
        let spoilt = spoil_heap(&heap, damage, random);
        let mut subject = heap_subject(format!("heap, {damage:?}"), &heap, spoilt.block);
        if !spoilt.ids.is_empty() && !random.one_in(3) {
            subject.ids = spoilt.ids.into_iter().map(u64::from).collect();
        }
        subjects.push(subject);
    }
    subjects
}

fn heap_subject(name: String, heap: &PlacedHeap, block: Vec<u8>) -> Subject {
    Subject {
        items: (1..=heap.items.len() as u64).map(|at| at << 5).collect(),
        ids: heap.properties.keys().map(|&id| u64::from(id)).collect(),
        ..Subject::new(name, block, ON_HEAP)
    }
}

fn random_heap(random: &mut Random) -> Subject {
    let length = match random.below(3) {
        0 => random.one_of([0, 1, 11, 12, 13, 17, 18, 8180, 8181]),
        _ => random.below(400),
    };
    let mut bytes = random.bytes(length);
    if length > 12 && random.one_in(2) {
        bytes[0] = random.between(12, length.min(255)) as u8;
        bytes[1..4].copy_from_slice(&[0, 0xEC, 0xBC]);
    }
    Subject::new("random heap".into(), bytes, ON_HEAP)
}

fn plain_bytes(random: &mut Random) -> Subject {
    let length = match random.below(4) {
        0 => random.below(4),
        1 => random.below(20_000),
        _ => random.below(300),
    };
    let bytes = random.bytes(length);
    Subject {
        asks: 40,
        ..Subject::new("bytes".into(), bytes, ON_BYTES)
    }
}
