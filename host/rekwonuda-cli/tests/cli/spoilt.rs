//! Images with one thing wrong.

use crate::images::sound;
use crate::runs::office;
use model::build::seal::{seal_block, seal_header, seal_page, set_end};
use model::build::{Built, PlacedBlock};
use model::page::Tree;
use model::Node;
use std::fs;

/// Pages of samples/office.pst. Each of its trees is a root with some leaves.
pub const NODE_ROOT: usize = 0xBE00;
pub const NODE_LEAVES: [usize; 4] = [0xB600, 0xB800, 0xBA00, 0xBC00];
pub const BLOCK_LEAVES: [usize; 3] = [0xAE00, 0xB000, 0xB200];

pub fn office_bytes() -> Vec<u8> {
    fs::read(office()).expect("the sample can be read")
}

/// The image with another end-of-file number, and a header sealed again.
pub fn ending(mut image: Vec<u8>, end: u64) -> Vec<u8> {
    set_end(&mut image, end);
    image
}

/// The sample with other keys in some entries of a page, whose entries have that size; the page is
/// sealed again.
pub fn office_with_keys(page: usize, size: usize, keys: &[(usize, u64)]) -> Vec<u8> {
    let mut image = office_bytes();
    for (entry, key) in keys {
        let at = page + entry * size;
        image[at..at + 8].copy_from_slice(&key.to_le_bytes());
    }
    seal_page(&mut image, page);
    image
}

/// A sound image with one byte changed, and the header's checksums put right again.
pub fn sealed(at: usize, byte: u8) -> Vec<u8> {
    let mut image = sound().image;
    image[at] = byte;
    seal_header(&mut image);
    image
}

/// A sound image with one bit changed.
pub fn flipped(at: usize) -> Vec<u8> {
    changed(&sound(), at)
}

pub fn changed(built: &Built, at: usize) -> Vec<u8> {
    let mut image = built.image.clone();
    image[at] ^= 1;
    image
}

/// A node whose data is a data tree.
pub fn with_tree(built: &Built) -> &Node {
    let is_tree = |node: &&Node| built.trees.contains_key(&node.data);
    let found = built.nodes.iter().find(is_tree);
    found.expect("there is a data tree")
}

/// A node whose data is one block that holds no properties.
pub fn with_block(built: &Built) -> &Node {
    let is_plain = |node: &&Node| {
        built.block(node.data).is_some()
            && !built.trees.contains_key(&node.data)
            && !built.heaps.contains_key(&node.node)
    };
    let found = built.nodes.iter().find(is_plain);
    found.expect("there is a node of one block")
}

/// The image with another number for the node's data block.
pub fn with_data(built: &Built, node: &Node, data: u64) -> Vec<u8> {
    let mut image = built.image.clone();
    let mut leaves = built.pages.iter();
    let (page, at) = leaves
        .find_map(|page| {
            let is_leaf = page.tree == Tree::Nodes && page.level == 0;
            let key = |key: &u64| is_leaf && *key == u64::from(node.node);
            Some((page.offset, page.keys.iter().position(key)?))
        })
        .expect("the node is listed");
    let field = page + 32 * at + 8;
    image[field..field + 8].copy_from_slice(&data.to_le_bytes());
    seal_page(&mut image, page);
    image
}

/// The image with these bytes at the front of a block, encoded and sealed.
pub fn with_bytes(built: &Built, block: &PlacedBlock, bytes: &[u8]) -> Vec<u8> {
    let mut image = built.image.clone();
    let mut data = block.data.clone();
    data[..bytes.len()].copy_from_slice(bytes);
    if block.number & 2 == 0 {
        model::encode(built.method, block.number, &mut data).expect("the method is one of three");
    }
    image[block.offset..block.offset + data.len()].copy_from_slice(&data);
    seal_block(&mut image, block.offset, block.size, block.number);
    image
}
