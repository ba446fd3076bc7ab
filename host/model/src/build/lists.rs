//! Small images for lists of nodes, which stand in several leaves.

use super::keys::page;
use super::{build, Built, Plan};
use crate::coding::{CYCLIC, PERMUTE};
use crate::edition::Edition;
use crate::page::Tree;

/// An NBT of level 2 with four sound leaves, a stale one whose last key is where its range ends, one
/// more that is sound, and a last one whose checksum differs.
pub fn mixed(edition: Edition) -> Built {
    let mut built = nodes_in_leaves(edition, 7, PERMUTE, 2, |leaves| {
        leaves.len() == 7 && leaves[4].len() > 2
    });
    let leaves = built.first_keys(Tree::Nodes, 0);
    let stale = page(&built, Tree::Nodes, 0, leaves[4]);
    let mut keys = built.pages[stale].keys.clone();
    let last = keys.len() - 1;
    keys[last] = built.range_end(&built.pages[stale]);
    built.set_keys(stale, &keys);
    let last = page(&built, Tree::Nodes, 0, leaves[6]);
    built.image[built.pages[last].offset + 16] ^= 1;
    built
}

/// An NBT of level 3 with five leaves.
pub fn deep(edition: Edition) -> Built {
    nodes_in_leaves(edition, 24, CYCLIC, 3, |leaves| leaves.len() == 5)
}

/// Fourteen nodes. The seed tells how they lie in leaves: it is the first one, from that one on, by which
/// they lie as they are to.
fn nodes_in_leaves(
    edition: Edition,
    seed: u64,
    method: u8,
    node_level: u8,
    fits: impl Fn(&[Vec<u64>]) -> bool,
) -> Built {
    let plan = Plan {
        edition,
        method,
        node_level,
        bare_nodes: 3,
        block_nodes: 11,
        most_size: 90,
        wider: 1,
        ..Plan::default()
    };
    let leaves = |built: &Built| {
        let firsts = built.first_keys(Tree::Nodes, 0).into_iter();
        let pages = firsts.map(|first| page(built, Tree::Nodes, 0, first));
        let keys = pages.map(|leaf| built.pages[leaf].keys.clone());
        keys.collect::<Vec<_>>()
    };
    let mut all = (seed..).map(|seed| build(seed, &plan));
    all.find(|built| fits(&leaves(built))).expect("some seed")
}
