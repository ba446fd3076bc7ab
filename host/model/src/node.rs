//! Nodes and their data (01, Blocks and their encoding: "Node data"; 02, 7/13). `file` is an image up to
//! where the file ends, under a header that has been accepted.

use crate::block::{is_internal, Tested};
use crate::bytes::{u16_at, u32_at};
use crate::edition::Layout;
use crate::header::{file, header, Header};
use crate::page::Tree;
use crate::refusal::{demand, Answer, Refusal};
use crate::tree::{self, Lookup};

/// A node as the NBT lists it.
#[derive(Clone, Copy, PartialEq, Eq, Debug)]
pub struct Node {
    pub node: u32,
    pub data: u64,
    pub subnode: u64,
    pub parent: u32,
}

pub fn find_node(image: &[u8], node: u64) -> Answer<Lookup<Node>> {
    let header = header(image)?;
    look_up(file(image), &header, node)
}

pub(crate) fn look_up(file: &[u8], header: &Header, node: u64) -> Answer<Lookup<Node>> {
    let found = tree::find(file, header, Tree::Nodes, node)?;
    Ok(found.map(|entry| listed(entry, header.edition.layout())))
}

pub fn next_node(image: &[u8], from: u64) -> Answer<Lookup<Node>> {
    let header = header(image)?;
    let from = Tree::Nodes.key(from);
    let found = tree::next(file(image), &header, Tree::Nodes, from)?;
    Ok(found.map(|entry| listed(entry, header.edition.layout())))
}

/// The number of bytes put at the front of `out`; None where the node is absent.
pub fn read_node(image: &[u8], node: u64, out: &mut [u8]) -> Answer<Option<usize>> {
    let header = header(image)?;
    let file = file(image);
    let Some(Node { data, .. }) = look_up(file, &header, node)?.found() else {
        return Ok(None);
    };
    // With or without bit 0, it names no block.
    if matches!(data, 0 | 1) {
        return Ok(Some(0));
    }
    let blocks = data_blocks(file, &header, data)?;
    let needed = blocks.iter().map(|block| block.stored.len()).sum();
    let mut rest = out.get_mut(..needed).ok_or(Refusal::short(needed))?;
    for block in blocks {
        let (own, behind) = rest.split_at_mut(block.stored.len());
        block.decode_into(header.method, own)?;
        rest = behind;
    }
    Ok(Some(needed))
}

fn listed(entry: &[u8], layout: &Layout) -> Node {
    let width = layout.width;
    Node {
        node: u32_at(entry, 0),
        data: layout.number_at(entry, width),
        subnode: layout.number_at(entry, 2 * width),
        parent: u32_at(entry, 3 * width),
    }
}

/// The blocks whose bytes, one behind the other, are the node's data; each has been tested.
fn data_blocks<'a>(file: &'a [u8], header: &Header, data: u64) -> Answer<Vec<Tested<'a>>> {
    let root = Tested::new(file, header, data)?;
    if !is_internal(data) {
        return Ok(vec![root]);
    }
    let place = root.listed.offset;
    let layout = header.edition.layout();
    let numbers = child_numbers(root.stored, layout).ok_or(Refusal::new(16, place))?;
    let children = numbers
        .map(|number| Tested::new(file, header, number))
        .collect::<Answer<Vec<_>>>()?;
    let sum: usize = children.iter().map(|child| child.stored.len()).sum();
    demand(sum as u64 == u64::from(u32_at(root.stored, 4)), 16, place)?;
    Ok(children)
}

/// None where the shape is wrong by its own bytes.
fn child_numbers<'a>(tree: &'a [u8], layout: &'a Layout) -> Option<impl Iterator<Item = u64> + 'a> {
    if tree.len() < 8 {
        return None;
    }
    let count = usize::from(u16_at(tree, 2));
    let shaped = tree[0] == 1
        && tree[1] == 1
        && (1..=layout.most_children).contains(&count)
        && tree.len() == 8 + layout.width * count;
    let children = tree[8..].chunks_exact(layout.width);
    let numbers = children.map(|child| layout.number_at(child, 0));
    (shaped && !numbers.clone().any(is_internal)).then_some(numbers)
}
