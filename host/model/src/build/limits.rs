//! Small images at the bounds of an edition: the longest blocks, the widest data trees, full pages and the
//! highest numbers; and what lies just outside.

use super::heaps::context_of_length;
use super::seal::seal_block;
use super::{build, Builder, Built, Plan};
use crate::bytes::put;
use crate::coding::{CYCLIC, NONE, PERMUTE};
use crate::edition::Edition;

/// A block of each of those sizes, and a node for each. Whether an edition allows them is not asked.
pub fn sizes(edition: Edition, sizes: &[usize]) -> Built {
    let mut builder = tidy(edition, CYCLIC);
    let numbers: Vec<_> = (1..).map(|at| 4 * at).take(sizes.len()).collect();
    for (&number, &size) in numbers.iter().zip(sizes) {
        let data = builder.space.random.bytes(size);
        builder.blocks.place_as(&mut builder.space, number, data);
    }
    builder.name(&numbers);
    builder.finish()
}

/// A data tree that names one block of 30 bytes so many times; whether an edition allows it is not asked.
pub fn children(edition: Edition, count: usize) -> Built {
    let mut builder = tidy(edition, PERMUTE);
    let data = builder.space.random.bytes(30);
    builder.blocks.place_as(&mut builder.space, 4, data);
    builder.spread(0xA, &vec![4; count]);
    builder.name(&[0xA, 4]);
    builder.finish()
}

/// The widest data tree, which says that it has one child more.
pub fn one_child_more(edition: Edition) -> Built {
    let count = edition.layout().most_children;
    let mut built = children(edition, count);
    let tree = built.block(0xA).expect("it is placed").clone();
    let count = (count as u16 + 1).to_le_bytes();
    put(&mut built.image, tree.offset + 2, &count);
    seal_block(&mut built.image, tree.offset, tree.size, tree.number);
    built
}

/// A node tree whose root, of level 1, and leaves have as many entries as a page may have, and a block tree
/// of one such leaf.
pub fn full_pages(edition: Edition) -> Built {
    let layout = edition.layout();
    let plan = Plan {
        edition,
        method: NONE,
        bare_nodes: layout.node_leaf.most * layout.index.most,
        spare_blocks: layout.block_leaf.most,
        most_size: 1,
        tidy: true,
        ..Plan::default()
    };
    build(31, &plan)
}

/// The highest number that an edition has room for is listed, and so is 1: a number one above the highest
/// is neither, though its low bytes are those of 0.
pub fn highest_listed(edition: Edition) -> Built {
    let mut builder = tidy(edition, PERMUTE);
    builder.fill(&[1, 0x10]);
    builder.spread(edition.layout().highest(), &[0x10, 1, 0x11]);
    builder.name(&[0x10, edition.layout().highest()]);
    builder.finish()
}

/// A node whose data is a property context of so many bytes.
pub fn long_heap(edition: Edition, length: usize) -> Built {
    let mut builder = tidy(edition, CYCLIC);
    let heap = context_of_length(&mut builder.space.random, length);
    let space = &mut builder.space;
    builder.blocks.place_as(space, 4, heap.block.clone());
    builder.name(&[4]);
    let node = builder.nodes.keys().next().copied();
    builder.heaps.insert(node.expect("it is listed"), heap);
    builder.finish()
}

fn tidy(edition: Edition, method: u8) -> Builder {
    let plan = Plan {
        edition,
        method,
        tidy: true,
        ..Plan::default()
    };
    Builder::new(7, &plan)
}
