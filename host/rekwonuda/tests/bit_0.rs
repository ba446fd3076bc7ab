//! Bit 0 of a block's number makes no difference where a block is looked up, tested or read.

use model::build::bit_0::{data_one, data_trees, highest, listed, ticket, twins};
use model::build::Built;
use model::Edition;
use rekwonuda::{Block, BlockId, Fault, Image, NodeId};

const NODE: NodeId = NodeId(0x8022);

fn blocks(built: &Built) -> Vec<Block> {
    let blocks: Result<_, _> = Image::new(&built.image).blocks().collect();
    blocks.expect("a sound block tree")
}

#[test]
fn a_node_reads_the_block_that_is_listed_without_the_bit() {
    for edition in Edition::BOTH {
        reads_without_the_bit(edition);
    }
}

fn reads_without_the_bit(edition: Edition) {
    let built = ticket(edition);
    let image = Image::new(&built.image);
    let node = image.find_node(NODE).unwrap().entry.unwrap();
    assert_eq!(node.data, Some(BlockId(0x1519)));
    let found = image.find_block(BlockId(0x1519)).unwrap().entry.unwrap();
    assert_eq!(found.id, BlockId(0x1518));
    assert_eq!(found.id.key(), node.data.unwrap().key());
    let data = image.node_data(NODE).unwrap().unwrap();
    assert_eq!(data, built.blocks[0].data);
    assert_eq!(Ok(data), image.block_data(BlockId(0x1518)));
}

#[test]
fn both_numbers_are_answered_alike() {
    let of = |edition| {
        let methods = [0, 1, 2].map(|method| listed(edition, method));
        [ticket(edition), data_trees(edition)]
            .into_iter()
            .chain(methods)
    };
    for built in Edition::BOTH.into_iter().flat_map(of) {
        let image = Image::new(&built.image);
        for block in blocks(&built) {
            let other = BlockId(block.id.0 ^ 1);
            assert_eq!(image.find_block(block.id), image.find_block(other));
            assert_eq!(image.test_block(block.id), image.test_block(other));
            assert_eq!(image.block_data(block.id), image.block_data(other));
        }
    }
}

#[test]
fn data_block_1_is_none() {
    for edition in Edition::BOTH {
        data_1_is_none(edition);
    }
}

fn data_1_is_none(edition: Edition) {
    let built = data_one(edition);
    let image = Image::new(&built.image);
    let stored: Vec<u64> = built.nodes.iter().map(|node| node.data).collect();
    assert_eq!(stored[..2], [0, 1]);
    for node in &built.nodes[..2] {
        let found = image.find_node(NodeId(node.node)).unwrap().entry.unwrap();
        assert_eq!(found.data, None);
        assert_eq!(image.node_data(found.id), Ok(Some(Vec::new())));
    }
    assert!(image.test_block(BlockId(1)).is_ok_and(|size| size > 0));
}

#[test]
fn each_block_is_listed_once() {
    let of = |edition| [ticket, data_trees, data_one, highest].map(|build| build(edition));
    for built in Edition::BOTH.into_iter().flat_map(of) {
        let listed: Vec<u64> = blocks(&built).iter().map(|block| block.id.0).collect();
        let mut placed = built.block_numbers();
        placed.sort_unstable();
        assert_eq!(listed, placed);
    }
}

#[test]
fn two_entries_that_differ_in_the_bit_alone_are_equal() {
    for built in Edition::BOTH.map(twins) {
        let refusal = Image::new(&built.image).check_blocks().unwrap_err();
        assert_eq!(refusal.fault, Fault::KeyOrder);
    }
}
