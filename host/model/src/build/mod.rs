//! A builder of valid images, the same for the same seed and plan. It answers the image along with
//! what was placed in it.

pub mod bit_0;
mod blocks;
pub mod end;
pub mod heaps;
pub(crate) mod items;
pub mod keys;
pub mod limits;
pub mod lists;
pub mod maps;
pub mod office;
mod pages;
pub mod seal;
mod space;
pub mod tables;

use crate::bytes::put;
use crate::edition::{Edition, Layout, Reference};
use crate::header::{CLIENT_MAGIC, MAGIC, SENTINEL};
use crate::node::Node;
use crate::page::Tree;
use crate::random::Random;
use blocks::Blocks;
use heaps::{property_context, HeapPlan, PlacedHeap};
use pages::{least_level, Entry, Grower};
use seal::set_end;
use space::Space;
use std::collections::BTreeMap;

/// The most bytes of an image that the programs work on.
pub const MOST_SMALL: usize = 65_536;

/// The most bytes of a block and the most children of a data tree: the reader's bounds, said here once
/// more, since a slip there must not change what is built.
pub fn most_size_and_children(edition: Edition) -> (usize, usize) {
    match edition {
        Edition::Bits64 => (8176, 1021),
        Edition::Bits32 => (8180, 2043),
    }
}

/// What an image is to hold.
#[derive(Clone, Copy, Debug, Default)]
pub struct Plan {
    pub edition: Edition,
    pub method: u8,
    /// Level of the root page; at least as high as the number of entries asks for.
    pub node_level: u8,
    pub block_level: u8,
    /// Nodes with data block 0.
    pub bare_nodes: usize,
    /// Nodes with one data block.
    pub block_nodes: usize,
    /// Nodes with a data tree.
    pub tree_nodes: usize,
    /// Nodes whose data block is a property context.
    pub property_nodes: usize,
    pub properties: usize,
    pub index_levels: u8,
    pub most_size: usize,
    pub most_children: usize,
    /// Every data tree names one block of the largest size, as often as it can.
    pub one_child: bool,
    /// Blocks that no node names.
    pub spare_blocks: usize,
    /// Full pages, ascending numbers, no gaps and no stale bytes.
    pub tidy: bool,
    /// An index page may have two entries more than it needs, and so many on top.
    pub wider: usize,
    /// Bit 0 of a block's number is drawn in each place anew: in its listing, its trailer, the nodes
    /// and data trees that name it, and the index pages above it.
    pub loose_bit_0: bool,
}

/// What tells blocks apart.
pub fn without_bit_0(number: u64) -> u64 {
    number & !1
}

#[derive(Clone, Debug)]
pub struct PlacedPage {
    pub tree: Tree,
    pub offset: usize,
    pub level: u8,
    pub is_root: bool,
    /// As stored; of nodes the low four bytes.
    pub keys: Vec<u64>,
}

#[derive(Clone, Debug)]
pub struct PlacedBlock {
    /// As listed.
    pub number: u64,
    pub offset: usize,
    pub size: u16,
    pub references: u16,
    /// Its bytes, decoded.
    pub data: Vec<u8>,
}

/// An image and what stands in it.
#[derive(Clone, Debug)]
pub struct Built {
    pub image: Vec<u8>,
    pub edition: Edition,
    pub method: u8,
    pub nodes: Vec<Node>,
    pub blocks: Vec<PlacedBlock>,
    pub pages: Vec<PlacedPage>,
    /// The children of each data tree as it names them, by its listed number.
    pub trees: BTreeMap<u64, Vec<u64>>,
    /// The property contexts, by node number.
    pub heaps: BTreeMap<u32, PlacedHeap>,
}

impl Built {
    pub fn layout(&self) -> &'static Layout {
        self.edition.layout()
    }

    pub fn node_numbers(&self) -> Vec<u64> {
        self.nodes.iter().map(|node| u64::from(node.node)).collect()
    }

    pub fn block_numbers(&self) -> Vec<u64> {
        self.blocks.iter().map(|block| block.number).collect()
    }

    pub fn block(&self, number: u64) -> Option<&PlacedBlock> {
        let sought = without_bit_0(number);
        let mut blocks = self.blocks.iter();
        blocks.find(|block| without_bit_0(block.number) == sought)
    }

    /// The offsets of the BBT's leaf page that lists the block of that number, and of its entry there.
    pub fn listing(&self, number: u64) -> Option<(usize, usize)> {
        let pages = self.pages.iter();
        let mut leaves = pages.filter(|page| page.tree == Tree::Blocks && page.level == 0);
        leaves.find_map(|page| {
            let at = page.keys.iter().position(|&key| key == number)?;
            Some((
                page.offset,
                page.offset + self.layout().block_leaf.size * at,
            ))
        })
    }

    /// The first keys of the pages of that tree and level, in ascending order.
    pub fn first_keys(&self, tree: Tree, level: u8) -> Vec<u64> {
        let pages = self.pages.iter();
        let fitting = pages.filter(|page| (page.tree, page.level) == (tree, level));
        let mut keys: Vec<_> = fitting
            .filter_map(|page| page.keys.first().copied())
            .collect();
        keys.sort_unstable();
        keys
    }

    /// The keys of the index pages above the page's level.
    fn keys_above<'a>(&'a self, page: &'a PlacedPage) -> impl Iterator<Item = u64> + 'a {
        let pages = self.pages.iter();
        let above = pages.filter(|other| other.tree == page.tree && other.level > page.level);
        above.flat_map(|other| other.keys.iter().copied())
    }

    /// Where the range of a page begins, which has a key.
    pub fn range_low(&self, page: &PlacedPage) -> u64 {
        let first = page.tree.key(page.keys[0]);
        let keys = self.keys_above(page);
        let up_to_first = keys.filter(|&key| page.tree.key(key) <= first);
        up_to_first.max().unwrap_or(0)
    }

    /// The first key behind the range of a page, which has a key; the highest number where the range has
    /// no end.
    pub fn range_end(&self, page: &PlacedPage) -> u64 {
        let last = page.tree.key(page.keys[page.keys.len() - 1]);
        let keys = self.keys_above(page);
        let behind_last = keys.filter(|&key| last < page.tree.key(key));
        behind_last.min().unwrap_or(u64::MAX)
    }

    /// The blocks whose bytes are the data of a node, by the numbers that name them.
    pub fn parts(&self, node: &Node) -> Vec<u64> {
        if without_bit_0(node.data) == 0 {
            return Vec::new();
        }
        let listed = self.block(node.data).map(|block| block.number);
        match listed.and_then(|number| self.trees.get(&number)) {
            Some(children) => children.clone(),
            None => vec![node.data],
        }
    }

    pub fn data(&self, node: &Node) -> Vec<u8> {
        let parts = self.parts(node);
        let blocks = parts.iter().filter_map(|&number| self.block(number));
        blocks.flat_map(|block| block.data.clone()).collect()
    }
}

pub fn build(seed: u64, plan: &Plan) -> Built {
    let mut builder = Builder::new(seed, plan);
    builder.place_nodes();
    builder.finish()
}

/// A seeded image of 64 bits and at most 65,536 bytes; shapes of all kinds come up over the seeds.
pub fn build_small(seed: u64) -> Built {
    build_small_of(Edition::Bits64, seed, false)
}

/// Such an image with bit 0 loose.
pub fn build_small_loose(seed: u64) -> Built {
    build_small_of(Edition::Bits64, seed, true)
}

/// Such an image of that edition.
pub fn build_small_of(edition: Edition, seed: u64, loose_bit_0: bool) -> Built {
    let mut random = Random::new(seed);
    loop {
        let seed = random.number();
        let plan = Plan {
            loose_bit_0,
            ..small_plan(edition, &mut random)
        };
        let built = build(seed, &plan);
        if built.image.len() <= MOST_SMALL {
            return built;
        }
    }
}

fn small_plan(edition: Edition, random: &mut Random) -> Plan {
    let deep = random.one_in(3);
    let most = if deep { 3 } else { 12 };
    let (most_size, _) = most_size_and_children(edition);
    Plan {
        edition,
        method: random.below(3) as u8,
        node_level: random.below(if deep { 8 } else { 3 }) as u8,
        block_level: random.below(if deep { 8 } else { 3 }) as u8,
        bare_nodes: random.below(most),
        block_nodes: random.below(most),
        tree_nodes: random.below(3),
        property_nodes: random.below(3),
        properties: random.below(40),
        index_levels: random.below(4) as u8,
        most_size: random.one_of([1, 49, 200, 200, 1200, most_size]),
        most_children: random.one_of([1, 3, 3, 8]),
        spare_blocks: random.below(most),
        tidy: random.one_in(6),
        ..Plan::default()
    }
}

struct Builder {
    plan: Plan,
    space: Space,
    blocks: Blocks,
    nodes: BTreeMap<u32, Node>,
    trees: BTreeMap<u64, Vec<u64>>,
    heaps: BTreeMap<u32, PlacedHeap>,
}

impl Builder {
    fn new(seed: u64, plan: &Plan) -> Self {
        Self {
            plan: *plan,
            space: Space::new(seed, plan),
            blocks: Blocks::new(plan.method),
            nodes: BTreeMap::new(),
            trees: BTreeMap::new(),
            heaps: BTreeMap::new(),
        }
    }

    fn place_nodes(&mut self) {
        for _ in 0..self.plan.bare_nodes {
            self.place_node(0);
        }
        for _ in 0..self.plan.block_nodes {
            let (data, _) = self.place_block();
            self.place_node(data);
        }
        for _ in 0..self.plan.tree_nodes {
            let data = self.place_tree();
            self.place_node(data);
        }
        for _ in 0..self.plan.property_nodes {
            self.place_properties();
        }
        for _ in 0..self.plan.spare_blocks {
            self.place_block();
        }
    }

    /// A block of random bytes: its number and size.
    fn place_block(&mut self) -> (u64, u32) {
        let random = &mut self.space.random;
        let (most_size, _) = most_size_and_children(self.plan.edition);
        let most = self.plan.most_size.clamp(1, most_size);
        let size = match random.below(6) {
            _ if self.plan.one_child => most,
            0 => most,
            1 => most.min(48),
            _ => random.between(1, most),
        };
        let data = random.bytes(size);
        (self.blocks.place(&mut self.space, data, false), size as u32)
    }

    /// A data tree; one child is named twice now and then.
    fn place_tree(&mut self) -> u64 {
        let (_, most_children) = most_size_and_children(self.plan.edition);
        let most = self.plan.most_children.clamp(1, most_children);
        let Plan {
            tidy, one_child, ..
        } = self.plan;
        let count = if tidy || one_child {
            most
        } else {
            self.space.random.between(1, most)
        };
        let (mut children, mut sum) = (Vec::new(), 0);
        let mut child = self.place_block();
        for _ in 0..count {
            children.push(child.0);
            sum += child.1;
            let again = one_child || (!tidy && self.space.random.one_in(3));
            if !again && children.len() < count {
                child = self.place_block();
            }
        }
        self.place_tree_over(children, sum)
    }

    fn place_tree_over(&mut self, children: Vec<u64>, sum: u32) -> u64 {
        let space = &mut self.space;
        let named = children.into_iter().map(|child| space.loosen(child));
        let children: Vec<_> = named.collect();
        let number = self.blocks.place_tree(&mut self.space, &children, sum);
        self.trees.insert(number, children);
        number
    }

    fn place_properties(&mut self) {
        let plan = HeapPlan {
            index_levels: self.plan.index_levels,
            properties: self.plan.properties,
            most_value: 60,
            tidy: self.plan.tidy,
        };
        let heap = property_context(&mut self.space.random, plan);
        let data = self.place_data(heap.block.clone());
        let node = self.place_node(data);
        self.heaps.insert(node, heap);
    }

    fn place_data(&mut self, data: Vec<u8>) -> u64 {
        self.blocks.place(&mut self.space, data, false)
    }

    /// Lists a node of a number not yet taken.
    fn place_node(&mut self, data: u64) -> u32 {
        let data = self.space.loosen(data);
        let tidy = self.plan.tidy;
        let random = &mut self.space.random;
        let node = loop {
            let node = match random.below(6) {
                0 if !tidy => random.number() as u32,
                1 if !tidy => random.below(64) as u32,
                _ => 0x8022 + 0x20 * self.nodes.len() as u32,
            };
            if !self.nodes.contains_key(&node) {
                break node;
            }
        };
        let subnode = if tidy {
            0
        } else {
            (random.number() >> random.below(64)) & self.space.layout.highest()
        };
        let parent = if tidy { 0x122 } else { random.number() as u32 };
        self.list_node(Node {
            node,
            data,
            subnode,
            parent,
        });
        node
    }

    fn list_node(&mut self, node: Node) {
        self.nodes.insert(node.node, node);
    }

    fn finish(mut self) -> Built {
        let mut pages = Vec::new();
        let listed = self.blocks.entries(&mut self.space);
        let blocks = self.grow(Tree::Blocks, &listed, self.plan.block_level, &mut pages);
        let listed: Vec<_> = self
            .nodes
            .values()
            .map(|node| node_entry(node, &mut self.space))
            .collect();
        let nodes = self.grow(Tree::Nodes, &listed, self.plan.node_level, &mut pages);
        let mut image = self.space.bytes;
        write_header(&mut image, &self.plan, nodes, blocks);
        Built {
            image,
            edition: self.plan.edition,
            method: self.plan.method,
            nodes: self.nodes.into_values().collect(),
            blocks: self.blocks.placed,
            pages,
            trees: self.trees,
            heaps: self.heaps,
        }
    }

    fn grow(
        &mut self,
        tree: Tree,
        entries: &[Entry],
        level: u8,
        pages: &mut Vec<PlacedPage>,
    ) -> Reference {
        // An index page holds at least one entry.
        let level = if entries.is_empty() { 0 } else { level };
        let level = level.max(least_level(self.space.layout, tree, entries.len()));
        let mut grower = Grower {
            space: &mut self.space,
            tree,
            pages,
            most_spare: 2 + self.plan.wider,
        };
        let root = grower.grow(entries, level, 0, None);
        if let Some(page) = pages.last_mut() {
            page.is_root = true;
        }
        root
    }
}

fn node_entry(node: &Node, space: &mut Space) -> Entry {
    let layout = space.layout;
    // The high half of a first field of eight bytes, and padding, may hold anything.
    let mut bytes = space.fresh(layout.node_leaf.size);
    put(&mut bytes, 0, &node.node.to_le_bytes());
    layout.put_number(&mut bytes, layout.width, node.data);
    layout.put_number(&mut bytes, 2 * layout.width, node.subnode);
    put(&mut bytes, 3 * layout.width, &node.parent.to_le_bytes());
    Entry {
        key: u64::from(node.node),
        bytes,
    }
}

/// The version stands there already.
fn write_header(image: &mut [u8], plan: &Plan, nodes: Reference, blocks: Reference) {
    put(image, 0, &MAGIC);
    put(image, 8, &CLIENT_MAGIC);
    // Fields that no rule here looks at, as 003, 2.2.2.5 and 2.2.2.6 have them: the version of the
    // client, and its platform.
    put(image, 12, &[19, 0, 1, 1]);
    let layout = plan.edition.layout();
    for (tree, root) in [(Tree::Nodes, nodes), (Tree::Blocks, blocks)] {
        layout.put_reference(image, layout.root(tree), root);
    }
    put(image, layout.header.sentinel, &[SENTINEL, plan.method]);
    let end = image.len() as u64;
    set_end(image, end);
}
