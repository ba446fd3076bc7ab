//! Small images in which a block's number has bit 0 in one place and not in another.

use super::blocks::tree_bytes;
use super::heaps::{property_context, HeapPlan};
use super::seal::{seal_block, seal_page};
use super::{without_bit_0, Builder, Built, PlacedPage, Plan};
use crate::bytes::put;
use crate::checksum::signature;
use crate::coding::{encode, CYCLIC, NONE, PERMUTE};
use crate::edition::Edition;
use crate::node::Node;
use crate::page::Tree;

const FIRST_NODE: u32 = 0x8022;

/// A node names 0x1519 and the BBT lists 0x1518, a property context. The number two above is named
/// too and not listed.
pub fn ticket(edition: Edition) -> Built {
    let mut builder = Builder::new(19, &tidy(edition, PERMUTE));
    let plan = HeapPlan {
        index_levels: 1,
        properties: 6,
        most_value: 30,
        tidy: true,
    };
    let heap = property_context(&mut builder.space.random, plan);
    let space = &mut builder.space;
    builder.blocks.place_as(space, 0x1518, heap.block.clone());
    builder.heaps.insert(FIRST_NODE, heap);
    builder.name(&[0x1519, 0x1518, 0x151D]);
    builder.finish()
}

/// Two numbers side by side in a leaf that are equal without bit 0, and a leaf before it.
pub fn twins(edition: Edition) -> Built {
    let numbers = [0x1510, 0x1514, 0x1518, 0x1519];
    let named = [0x1510, 0x1518, 0x1519];
    over_leaves(3, (edition, NONE, 1), &numbers, &named, |leaves| {
        leaves.len() > 1 && leaves.last() < Some(&0x1519)
    })
}

/// Data trees that name children with the bit where it is not listed, and the other way round.
pub fn data_trees(edition: Edition) -> Built {
    let mut builder = Builder::new(40, &tidy(edition, CYCLIC));
    builder.fill(&[0x20, 0x24, 0x29, 0x2D]);
    builder.spread(0x33, &[0x21, 0x25, 0x28, 0x2D, 0x20]);
    builder.spread(0x36, &[0x2C, 0x29]);
    builder.name(&[0x32, 0x37]);
    builder.finish()
}

/// Blocks that are listed with the bit, one of them internal.
pub fn listed(edition: Edition, method: u8) -> Built {
    let mut builder = Builder::new(41 + u64::from(method), &tidy(edition, method));
    builder.fill(&[0x1519]);
    builder.spread(0x1523, &[0x1519, 0x1518]);
    builder.name(&[0x1519, 0x1518, 0x1523, 0x1522]);
    builder.finish()
}

/// Block 1 is listed: a data tree's child, but no node's data block.
pub fn data_one(edition: Edition) -> Built {
    let mut builder = Builder::new(44, &tidy(edition, PERMUTE));
    builder.fill(&[1, 0x10]);
    builder.spread(0x16, &[1, 0, 0x10]);
    builder.name(&[0, 1, 0x16, 0x11]);
    builder.finish()
}

/// The same, with a BBT that has no sound page.
pub fn data_one_alone(edition: Edition) -> Built {
    let mut built = data_one(edition);
    let page = root(&built).offset;
    let kinds = page + built.layout().page.kinds;
    built.image[kinds + 1] = Tree::Nodes.kind();
    built
}

/// Index keys and trailers have the bit, leaves have it not.
pub fn index_keys(edition: Edition) -> Built {
    let numbers = [0x100, 0x104, 0x108, 0x10C, 0x110, 0x114];
    let named = [0x100, 0x105, 0x109, 0x110];
    let mut built = over_leaves(145, (edition, PERMUTE, 2), &numbers, &named, |leaves| {
        leaves.len() > 2
    });
    let layout = built.layout();
    let of_index = |page: &&mut PlacedPage| page.tree == Tree::Blocks && page.level > 0;
    for page in built.pages.iter_mut().filter(of_index) {
        for (at, key) in page.keys.iter_mut().enumerate() {
            *key |= 1;
            let place = page.offset + layout.index.size * at;
            layout.put_number(&mut built.image, place, *key);
        }
        seal_page(&mut built.image, page.offset);
    }
    for block in &built.blocks {
        let number = layout.trailer_at(block.offset, block.size) + layout.trailer.number;
        built.image[number] |= 1;
    }
    built
}

/// An index key that is equal, without bit 0, to the last key of the leaf before it.
pub fn range_end(edition: Edition) -> Built {
    let numbers = [0x100, 0x104, 0x108, 0x10C];
    let plan = (edition, CYCLIC, 1);
    let mut built = over_leaves(3, plan, &numbers, &numbers, |leaves| leaves.len() > 1);
    let layout = built.layout();
    let page = root(&built).offset;
    let second = page + layout.index.size;
    let behind = layout.number_at(&built.image, second);
    let below = |number: &&u64| **number < without_bit_0(behind);
    let last = numbers.iter().rfind(below).expect("a leaf before it");
    layout.put_number(&mut built.image, second, last | 1);
    seal_page(&mut built.image, page);
    built
}

/// Trailers, and bytes, of the number with bit 0 the other way: the first two and the last are
/// accepted.
pub fn trailers(edition: Edition) -> Built {
    let mut builder = Builder::new(48, &tidy(edition, CYCLIC));
    let numbers = [0x40, 0x45, 0x49, 0x4D, 0x51];
    builder.fill(&numbers);
    builder.name(&numbers);
    let mut built = builder.finish();
    let layout = built.layout();
    let (image, blocks) = (&mut built.image, &built.blocks);
    let trailer = |at: usize| layout.trailer_at(blocks[at].offset, blocks[at].size);
    let number = |at| trailer(at) + layout.trailer.number;
    image[number(0)] ^= 1;
    image[number(1)] ^= 1;
    let signed = signature(blocks[2].offset as u64, blocks[2].number ^ 1);
    put(image, trailer(2) + 2, &signed.to_le_bytes());
    image[number(3)] ^= 3;
    let coded = &blocks[4];
    let mut stored = coded.data.clone();
    encode(CYCLIC, coded.number ^ 1, &mut stored).expect("a method of 0 to 2");
    put(image, coded.offset, &stored);
    seal_block(image, coded.offset, coded.size, coded.number);
    built
}

/// The highest numbers there are.
pub fn highest(edition: Edition) -> Built {
    let mut builder = Builder::new(49, &tidy(edition, CYCLIC));
    let highest = edition.layout().highest();
    builder.fill(&[highest - 2]);
    builder.spread(highest, &[highest - 3, highest - 2]);
    builder.name(&[highest - 3, highest - 1]);
    builder.finish()
}

/// The BBT's root page has its number with bit 0 the other way, under the signature of the right one.
pub fn page_number(edition: Edition) -> Built {
    let mut builder = Builder::new(50, &tidy(edition, NONE));
    builder.fill(&[4]);
    builder.name(&[5, 1]);
    let mut built = builder.finish();
    let number = root(&built).offset + built.layout().page.number;
    built.image[number] ^= 1;
    built
}

fn tidy(edition: Edition, method: u8) -> Plan {
    Plan {
        edition,
        method,
        tidy: true,
        ..Plan::default()
    }
}

/// Those blocks, and a node for each of the named ones, with a BBT of that level. The seed tells how they
/// lie in leaves: it is the first one, from that one on, by which the first keys of the leaves are as they
/// are to be.
fn over_leaves(
    seed: u64,
    (edition, method, block_level): (Edition, u8, u8),
    numbers: &[u64],
    named: &[u64],
    fits: impl Fn(&[u64]) -> bool,
) -> Built {
    let plan = Plan {
        edition,
        method,
        block_level,
        ..Plan::default()
    };
    let built = |seed| {
        let mut builder = Builder::new(seed, &plan);
        builder.fill(numbers);
        builder.name(named);
        builder.finish()
    };
    let mut all = (seed..).map(built);
    let found = all.find(|built| fits(&built.first_keys(Tree::Blocks, 0)));
    found.expect("some seed")
}

fn root(built: &Built) -> &PlacedPage {
    let is_root = |page: &&PlacedPage| page.tree == Tree::Blocks && page.is_root;
    built.pages.iter().find(is_root).expect("a root page")
}

impl Builder {
    /// Places a block under each number, the first the longest.
    pub(super) fn fill(&mut self, numbers: &[u64]) {
        for (at, &number) in numbers.iter().enumerate() {
            let data = self.space.random.bytes(300 - 40 * at.min(6));
            self.blocks.place_as(&mut self.space, number, data);
        }
    }

    /// Places a data tree that names those children.
    pub(super) fn spread(&mut self, number: u64, children: &[u64]) {
        let size = |child: u64| {
            let sought = without_bit_0(child);
            let mut placed = self.blocks.placed.iter();
            let block = placed.find(|block| without_bit_0(block.number) == sought);
            u32::from(block.expect("it is placed").size)
        };
        let sum = children.iter().map(|&child| size(child)).sum();
        let space = &mut self.space;
        let data = tree_bytes(space.layout, children, sum);
        self.blocks.place_as(space, number, data);
        self.trees.insert(number, children.to_vec());
    }

    /// Lists a node for each of those data blocks.
    pub(super) fn name(&mut self, numbers: &[u64]) {
        for (node, &data) in (FIRST_NODE..).step_by(0x20).zip(numbers) {
            self.list_node(Node {
                node,
                data,
                subnode: 0,
                parent: 0x122,
            });
        }
    }
}
