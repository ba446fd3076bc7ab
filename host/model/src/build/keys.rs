//! Small images in which a page's keys are out of order, or outside the page's range.

use super::seal::seal_page;
use super::{Builder, Built, PlacedPage, Plan};
use crate::coding::{CYCLIC, NONE, PERMUTE};
use crate::edition::Edition;
use crate::page::Tree;

const BLOCKS: [u64; 8] = [0x100, 0x104, 0x108, 0x10C, 0x110, 0x114, 0x118, 0x11C];

/// A leaf of the BBT whose last two entries stand in each other's place.
pub fn shuffled(edition: Edition) -> Built {
    let mut built = block_leaves(edition, NONE);
    let leaf = page(&built, Tree::Blocks, 0, 0x108);
    let size = built.layout().block_leaf.size;
    let at = built.pages[leaf].offset + 2 * size;
    let (third, last) = built.image[at..at + 2 * size].split_at_mut(size);
    third.swap_with_slice(last);
    built.pages[leaf].keys.swap(2, 3);
    built.seal(leaf);
    built
}

/// Two equal keys in an index page of the BBT that is not its root.
pub fn equal(edition: Edition) -> Built {
    let (mut built, index) = three_in_index(edition, 43, (Tree::Blocks, false), CYCLIC);
    let mut keys = built.pages[index].keys.clone();
    keys[1] = keys[0];
    built.set_keys(index, &keys);
    built
}

/// The index page of the BBT names the first two leaves, each in the other's place: the one has keys
/// above its range alone, the other keys below it.
pub fn exchanged(edition: Edition) -> Built {
    let mut built = block_leaves(edition, PERMUTE);
    let layout = built.layout();
    let is_root = |page: &PlacedPage| page.tree == Tree::Blocks && page.is_root;
    let root = built.pages.iter().position(is_root).expect("a root");
    let (at, size) = (built.pages[root].offset, layout.index.size);
    let (first, second) = built.image[at..at + 2 * size].split_at_mut(size);
    first[layout.width..].swap_with_slice(&mut second[layout.width..]);
    built.seal(root);
    built
}

/// A leaf of the NBT as it was before its last entries went to the leaf behind it.
pub fn unsplit(edition: Edition) -> Built {
    let mut built = node_leaves(edition, CYCLIC);
    let layout = built.layout();
    let leaf = page(&built, Tree::Nodes, 0, 0x8062);
    let behind = page(&built, Tree::Nodes, 0, 0x80E2);
    let (to, from) = (built.pages[leaf].offset, built.pages[behind].offset);
    let size = layout.node_leaf.size;
    let moved = from..from + 2 * size;
    built.image.copy_within(moved, to + 4 * size);
    built.image[to + layout.page.counts] = 6;
    built.pages[leaf].keys.extend([0x80E2, 0x8102]);
    built.seal(leaf);
    built
}

/// In a leaf of the BBT a key above the range, and the same key once more.
pub fn range_first(edition: Edition) -> Built {
    let mut built = block_leaves(edition, CYCLIC);
    let leaf = page(&built, Tree::Blocks, 0, 0x108);
    built.set_keys(leaf, &[0x108, 0x10C, 0x118, 0x118]);
    built
}

/// In a leaf of the NBT a key twice, and behind them one above the range.
pub fn order_first(edition: Edition) -> Built {
    let mut built = node_leaves(edition, PERMUTE);
    let leaf = page(&built, Tree::Nodes, 0, 0x8062);
    built.set_keys(leaf, &[0x8062, 0x8062, 0x80A2, 0x80E2]);
    built
}

/// In a leaf of the BBT a key below the range, and so below the key before it.
pub fn below(edition: Edition) -> Built {
    let mut built = block_leaves(edition, PERMUTE);
    let leaf = page(&built, Tree::Blocks, 0, 0x108);
    built.set_keys(leaf, &[0x108, 0x100, 0x110, 0x114]);
    built
}

/// An index page of the NBT, not its root, whose last key is where its range ends.
pub fn index_last(edition: Edition) -> Built {
    let (mut built, index) = three_in_index(edition, 1, (Tree::Nodes, true), NONE);
    let mut keys = built.pages[index].keys.clone();
    keys[2] = built.range_end(&built.pages[index]);
    built.set_keys(index, &keys);
    built
}

/// A BBT of three leaves: the one in the middle lists four blocks from 0x108 on.
fn block_leaves(edition: Edition, method: u8) -> Built {
    let plan = Plan {
        edition,
        method,
        block_level: 1,
        ..Plan::default()
    };
    let leaves = [0x100, 0x108, 0x118];
    listed(13, &plan, |built| {
        built.first_keys(Tree::Blocks, 0) == leaves
    })
}

/// An NBT of three leaves: the one in the middle has four nodes from 0x8062 on, and room for two more.
fn node_leaves(edition: Edition, method: u8) -> Built {
    let plan = Plan {
        edition,
        method,
        node_level: 1,
        ..Plan::default()
    };
    listed(70, &plan, |built| {
        let leaves = built.first_keys(Tree::Nodes, 0) == [0x8022, 0x8062, 0x80E2];
        leaves && {
            let leaf = &built.pages[page(built, Tree::Nodes, 0, 0x8062)];
            built.image[leaf.offset + built.layout().page.counts + 1] >= 6
        }
    })
}

/// A tree of level 2 with an index page of three entries whose range has an end or has not; and the place
/// of that page.
fn three_in_index(
    edition: Edition,
    seed: u64,
    (tree, ended): (Tree, bool),
    method: u8,
) -> (Built, usize) {
    let level = |of| if tree == of { 2 } else { 0 };
    let plan = Plan {
        edition,
        method,
        node_level: level(Tree::Nodes),
        block_level: level(Tree::Blocks),
        ..Plan::default()
    };
    let index = |built: &Built| {
        let mut pages = built.pages.iter();
        pages.position(|page| {
            let fits = (page.tree, page.level, page.keys.len()) == (tree, 1, 3);
            fits && (built.range_end(page) < u64::MAX) == ended
        })
    };
    let built = listed(seed, &plan, |built| index(built).is_some());
    let index = index(&built).expect("it was sought");
    (built, index)
}

/// Eight blocks, and a node for each. The seed tells how they lie in leaves: it is the first one, from
/// that one on, by which they lie as they are to.
fn listed(seed: u64, plan: &Plan, fits: impl Fn(&Built) -> bool) -> Built {
    let built = |seed| {
        let mut builder = Builder::new(seed, plan);
        builder.fill(&BLOCKS);
        builder.name(&BLOCKS);
        builder.finish()
    };
    let mut all = (seed..).map(built);
    all.find(fits).expect("some seed")
}

pub(super) fn page(built: &Built, tree: Tree, level: u8, first: u64) -> usize {
    let is_it = |page: &PlacedPage| {
        (page.tree, page.level) == (tree, level) && page.keys.first() == Some(&first)
    };
    built.pages.iter().position(is_it).expect("that page")
}

impl Built {
    fn seal(&mut self, page: usize) {
        seal_page(&mut self.image, self.pages[page].offset);
    }

    pub(super) fn set_keys(&mut self, page: usize, keys: &[u64]) {
        let layout = self.layout();
        let placed = &mut self.pages[page];
        placed.keys = keys.to_vec();
        let size = layout.entries(placed.tree, placed.level).size;
        for (at, &key) in keys.iter().enumerate() {
            layout.put_number(&mut self.image, placed.offset + at * size, key);
        }
        self.seal(page);
    }
}
