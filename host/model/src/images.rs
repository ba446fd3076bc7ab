//! A choice of small images, the same each time: some of each method and depth, damaged ones that
//! together reach every refusal, those that turn on bit 0 of a block's number, those in which keys are
//! out of order or out of range, those for a list of nodes, those that turn on where the file ends, and
//! those of the edition of 32 bits.

mod bit_0;
mod editions;
mod end;
mod keys;
mod lists;

use crate::build::heaps::PlacedHeap;
use crate::build::seal::seal_block;
use crate::build::{build, Built, Plan};
use crate::bytes::put;
use crate::coding::{encode, CYCLIC, NONE, PERMUTE};
use crate::damage::heap::{spoil_heap, HeapDamage};
use crate::damage::{spoil, Damage};
use crate::edition::Edition;
use crate::header::LEAST_IMAGE;
use crate::random::Random;
use crate::refusal::Answer;

/// An image with what is worth asking of it.
#[derive(Clone, Debug)]
pub struct Image {
    pub name: String,
    pub bytes: Vec<u8>,
    pub nodes: Vec<u64>,
    pub blocks: Vec<u64>,
    /// Keys to list from, in either tree.
    pub from: Vec<u64>,
    pub ids: Vec<u16>,
    /// The length of the buffer to read into.
    pub buffer: usize,
}

const BUFFER: usize = 65_536;
const MOST_ASKED: usize = 6;

/// The image of that depth in which two keys of an index page are equal without bit 0.
const TWIN_KEYS: &str = "permute-level-2";

/// Refusal, kind of damage, sealed, and a seed by which the one leads to the other.
type Kind = (u64, Damage, bool, u64);

/// The low key is out of range, which is 21. The child that 12 stands for is listed with bit 0 the other
/// way, so that it is read all the same. The version is 14, that of a header whose sentinel stands
/// elsewhere, which is 5.
const DAMAGED: &[Kind] = &[
    (2, Damage::Magic, true, 0),
    (2, Damage::ClientMagic, true, 0),
    (3, Damage::Version, true, 0),
    (4, Damage::PartialSum, false, 0),
    (4, Damage::FullSum, false, 0),
    (5, Damage::Sentinel, true, 0),
    (5, Damage::Method, true, 0),
    (6, Damage::RootOffset, true, 0),
    (6, Damage::ChildOffset, true, 0),
    (7, Damage::PageKind, true, 0),
    (8, Damage::PageNumber, true, 0),
    (8, Damage::PageSignature, true, 0),
    (9, Damage::PageByte, false, 0),
    (10, Damage::PageCount, true, 0),
    (10, Damage::PageLevel, true, 0),
    (11, Damage::KeyEqual, true, 0),
    (11, Damage::KeyLow, true, 0),
    (12, Damage::TreeChild, true, 1),
    (13, Damage::ListedSize, true, 2),
    (14, Damage::TrailerNumber, true, 0),
    (15, Damage::BlockByte, false, 0),
    (16, Damage::TreeSum, true, 0),
    (16, Damage::TreeCount, true, 0),
];

const DAMAGED_HEAPS: &[(u64, HeapDamage, u64)] = &[
    (18, HeapDamage::ItemOffset, 1),
    (19, HeapDamage::RecordValue, 1),
    (20, HeapDamage::RecordKey, 16),
];

pub fn images() -> Vec<Image> {
    let mut images = shapes();
    images.push(short_image());
    images.extend(DAMAGED.iter().map(|kind| damaged(Edition::Bits64, *kind)));
    images.push(short_buffer());
    images.extend(
        DAMAGED_HEAPS
            .iter()
            .map(|&(number, damage, seed)| damaged_heap(number, damage, seed)),
    );
    images.extend(bit_0::images(Edition::Bits64));
    images.extend(keys::images(Edition::Bits64));
    images.extend(lists::images(Edition::Bits64));
    images.extend(end::images(Edition::Bits64));
    images.extend(editions::images());
    images
}

/// A few nodes of each sort in little space.
fn base(edition: Edition, method: u8, level: u8, index_levels: u8) -> Plan {
    Plan {
        edition,
        method,
        node_level: level,
        block_level: level,
        bare_nodes: 1,
        block_nodes: 2,
        tree_nodes: 1,
        property_nodes: 1,
        properties: 12,
        index_levels,
        most_size: 90,
        most_children: 3,
        ..Plan::default()
    }
}

fn shapes() -> Vec<Image> {
    let shapes = [
        ("none-level-0", NONE, 0, 0),
        ("permute-level-0", PERMUTE, 0, 1),
        ("cyclic-level-0", CYCLIC, 0, 2),
        ("cyclic-level-1", CYCLIC, 1, 3),
        ("permute-level-2", PERMUTE, 2, 2),
        ("none-level-3", NONE, 3, 1),
        ("cyclic-level-5", CYCLIC, 5, 0),
        ("permute-level-7", PERMUTE, 7, 3),
    ];
    let empty = build(1, &Plan::default());
    let mut images = vec![image_of("empty", empty.image.clone(), &empty)];
    for (name, method, level, index_levels) in shapes {
        let built = build(
            u64::from(level) + 2,
            &base(Edition::Bits64, method, level, index_levels),
        );
        let bytes = if name == TWIN_KEYS {
            spoil(&built, Damage::KeyTwin, true, &mut Random::new(0)).image
        } else {
            built.image.clone()
        };
        images.push(image_of(name, bytes, &built));
    }
    images
}

fn image_of(name: &str, bytes: Vec<u8>, built: &Built) -> Image {
    let nodes = built.node_numbers();
    let blocks = built.block_numbers();
    let ids = built
        .heaps
        .values()
        .flat_map(|heap| heap.properties.keys().copied());
    Image {
        name: name.into(),
        bytes,
        from: vec![
            0,
            nodes.first().map_or(1, |node| node + 1),
            u64::from(u32::MAX),
        ],
        nodes: asked(&nodes, &[]),
        blocks: asked(&blocks, &[]),
        ids: ids.take(MOST_ASKED).collect(),
        buffer: BUFFER,
    }
}

/// Those that come first, then others, then the neighbour of one, at most six in all.
fn asked(known: &[u64], first: &[u64]) -> Vec<u64> {
    let mut asked = Vec::new();
    let neighbour = known.first().map_or(33, |number| number + 1);
    for &number in first.iter().chain(known) {
        if !asked.contains(&number) && asked.len() + 1 < MOST_ASKED {
            asked.push(number);
        }
    }
    asked.push(neighbour);
    asked
}

fn damaged(edition: Edition, (number, damage, sealed, seed): Kind) -> Image {
    let built = build(number, &base(edition, (number % 3) as u8, 1, 0));
    let name = format!("refusal-{number}-{damage:?}").to_lowercase();
    let mut spoilt = spoil(&built, damage, sealed, &mut Random::new(seed));
    if number <= 5 {
        spoilt.image.truncate(LEAST_IMAGE);
    }
    let mut image = image_of(&name, spoilt.image, &built);
    image.nodes = asked(&built.node_numbers(), &spoilt.nodes);
    image.blocks = asked(&built.block_numbers(), &spoilt.blocks);
    image
}

fn short_image() -> Image {
    let built = build(1, &base(Edition::Bits64, NONE, 0, 0));
    image_of(
        "refusal-1-short",
        built.image[..LEAST_IMAGE - 1].to_vec(),
        &built,
    )
}

fn short_buffer() -> Image {
    let built = build(17, &base(Edition::Bits64, CYCLIC, 1, 0));
    let needed = built.nodes.iter().map(|node| built.data(node).len()).max();
    let mut image = image_of("refusal-17-buffer", built.image.clone(), &built);
    image.buffer = needed.unwrap_or(1) - 1;
    image
}

/// An image whose property context is spoilt, and its block sealed again.
fn damaged_heap(number: u64, damage: HeapDamage, seed: u64) -> Image {
    let built = build(number, &base(Edition::Bits64, (number % 3) as u8, 0, 1));
    let name = format!("refusal-{number}-{damage:?}").to_lowercase();
    let heaps = built.heaps.first_key_value();
    let (&node, heap) = heaps.expect("a property context");
    let bytes = with_heap(&built, node, heap, damage, seed).expect("its block");
    let mut image = image_of(&name, bytes, &built);
    image.nodes = asked(&image.nodes, &[u64::from(node)]);
    image
}

fn with_heap(
    built: &Built,
    node: u32,
    heap: &PlacedHeap,
    damage: HeapDamage,
    seed: u64,
) -> Option<Vec<u8>> {
    let mut spoilt = spoil_heap(heap, damage, &mut Random::new(seed)).block;
    let node = built.nodes.iter().find(|placed| placed.node == node)?;
    let block = built.block(node.data)?;
    encode(built.method, block.number, &mut spoilt).ok()?;
    let mut image = built.image.clone();
    put(&mut image, block.offset, &spoilt);
    seal_block(&mut image, block.offset, block.size, block.number);
    Some(image)
}

/// The refusals that the calls on an image give when asked what is worth asking.
pub fn refusals(image: &Image) -> Vec<u64> {
    let mut found = Vec::new();
    let mut note = |answer: Answer<()>| found.extend(answer.err().map(|refusal| refusal.number));
    let bytes = &image.bytes;
    note(crate::check_nodes(bytes));
    note(crate::check_blocks(bytes));
    let mut out = vec![0; image.buffer];
    for &block in &image.blocks {
        let read = crate::read_block(bytes, block, &mut out);
        // Any image answers 12 to a number that it does not list.
        if read.is_err_and(|refusal| refusal.number != 12) {
            note(read.map(|_| ()));
        }
    }
    for &node in &image.nodes {
        let read = crate::read_node(bytes, node, &mut out);
        note(read.map(|_| ()));
        let heap = &out[..read.ok().flatten().unwrap_or(0)];
        if heap.get(2) == Some(&crate::heap::HEAP_MARK) {
            for &id in &image.ids {
                note(crate::find_property(heap, id).map(|_| ()));
            }
        }
    }
    found
}
