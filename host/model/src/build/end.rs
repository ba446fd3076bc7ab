//! Where the file ends: pages and blocks moved to behind the image's last byte, old bytes hung on there,
//! and small images that turn on the end-of-file number.

use super::seal::set_end;
use super::{Builder, Built, PlacedBlock, PlacedPage, Plan};
use crate::coding::{CYCLIC, NONE, PERMUTE};
use crate::edition::Edition;
use crate::page::{Tree, FIRST_OFFSET, PAGE, STEP};
use crate::random::Random;

/// Moves the page to behind the image's last byte, sound in itself, and has the header or the page above
/// it lead there. Its old bytes stay. Answers where it stands.
pub fn move_page(image: &mut Vec<u8>, built: &Built, page: &PlacedPage) -> usize {
    let layout = built.layout();
    let offset = room_behind(image, PAGE);
    image.copy_within(page.offset..page.offset + PAGE, offset);
    layout.seal_page(image, offset);
    if let Some((above, entry)) = above(built, page) {
        layout.put_number(image, entry + 2 * layout.width, offset as u64);
        layout.seal_page(image, above);
    } else {
        let reference = layout.root(page.tree);
        layout.put_number(image, reference + layout.width, offset as u64);
        layout.seal_header(image);
    }
    offset
}

/// Moves the block to behind the image's last byte, sound in itself, and has the block tree list it
/// there. Its old bytes stay. Answers where it stands.
pub fn move_block(image: &mut Vec<u8>, built: &Built, block: &PlacedBlock) -> usize {
    let (page, entry) = built.listing(block.number).expect("it is listed");
    let layout = built.layout();
    let offset = room_behind(image, layout.room(u32::from(block.size)) as usize);
    let stored = block.offset..block.offset + usize::from(block.size);
    image.copy_within(stored, offset);
    layout.seal_block(image, offset, block.size, block.number);
    layout.put_number(image, entry + layout.width, offset as u64);
    layout.seal_page(image, page);
    offset
}

/// The offset of so many zeros behind the image's last byte.
fn room_behind(image: &mut Vec<u8>, length: usize) -> usize {
    let offset = image.len().next_multiple_of(STEP as usize);
    image.resize(offset + length, 0);
    offset
}

/// The offsets of the index page above the page, and of its entry for the page; none above a root.
fn above(built: &Built, page: &PlacedPage) -> Option<(usize, usize)> {
    let layout = built.layout();
    let pages = built.pages.iter();
    let mut index = pages.filter(|other| other.tree == page.tree && other.level == page.level + 1);
    index.find_map(|index| {
        let mut entries = (0..index.keys.len()).map(|at| index.offset + layout.index.size * at);
        let names_it = |entry: &usize| {
            let child = layout.reference_at(&built.image, entry + layout.width);
            child.offset == page.offset as u64
        };
        Some((index.offset, entries.find(names_it)?))
    })
}

/// The number is 0: no page lies before the end.
pub fn zero(edition: Edition) -> Built {
    let mut built = sound(edition, NONE);
    set_end(&mut built.image, 0);
    built
}

/// The number is one above the image's length.
pub fn too_high(edition: Edition) -> Built {
    let mut built = sound(edition, PERMUTE);
    let end = built.image.len() as u64 + 1;
    set_end(&mut built.image, end);
    built
}

/// Old copies of all pages and blocks hang on behind the end, and then bytes of no meaning.
pub fn hanging_on(edition: Edition) -> Built {
    let mut built = sound(edition, CYCLIC);
    built.image.extend_from_within(FIRST_OFFSET as usize..);
    let random = Random::new(6).bytes(700);
    built.image.extend_from_slice(&random);
    built
}

/// The root page of the node tree stands behind the end.
pub fn root_behind(edition: Edition) -> Built {
    let mut built = sound(edition, CYCLIC);
    let root = built.pages.len() - 1;
    built.move_page(root);
    built
}

/// A leaf of the node tree stands behind the end.
pub fn page_behind(edition: Edition) -> Built {
    let mut built = sound(edition, PERMUTE);
    built.move_page(first_leaf(&built, Tree::Nodes));
    built
}

/// A leaf of the block tree ends so many bytes behind the end, with a step of zeros behind it.
pub fn page_over(edition: Edition, bytes: u64) -> Built {
    let mut built = sound(edition, NONE);
    built.move_page(first_leaf(&built, Tree::Blocks));
    built.end_before_last(bytes);
    built
}

/// A block that is a node's data, and also part of another node's, stands behind the end.
pub fn block_behind(edition: Edition) -> Built {
    let mut built = sound(edition, CYCLIC);
    built.move_block(SHARED);
    built
}

/// The room of that block ends so many bytes behind the end, with a step of zeros behind it.
pub fn block_over(edition: Edition, bytes: u64) -> Built {
    let mut built = sound(edition, PERMUTE);
    built.move_block(SHARED);
    built.end_before_last(bytes);
    built
}

const BLOCKS: [u64; 8] = [0x100, 0x104, 0x108, 0x10C, 0x110, 0x114, 0x118, 0x11C];
const DATA_TREE: u64 = 0x122;
const SHARED: u64 = 0x10C;

/// Trees of several leaves each; the first seed, from that one on, makes them so. Each block is a node's
/// data; four of them are that of one more node.
fn sound(edition: Edition, method: u8) -> Built {
    let plan = Plan {
        edition,
        method,
        node_level: 1,
        block_level: 1,
        ..Plan::default()
    };
    let built = |seed| {
        let mut builder = Builder::new(seed, &plan);
        builder.fill(&BLOCKS);
        builder.spread(DATA_TREE, &[0x104, SHARED, 0x114, 0x104]);
        builder.name(&[&BLOCKS[..], &[DATA_TREE]].concat());
        builder.finish()
    };
    let several = |built: &Built| {
        let leaves = [Tree::Nodes, Tree::Blocks].map(|tree| built.first_keys(tree, 0).len());
        leaves.iter().all(|&leaves| leaves > 1)
    };
    let mut all = (13..).map(built);
    all.find(several).expect("some seed")
}

fn first_leaf(built: &Built, tree: Tree) -> usize {
    let leaf = |page: &PlacedPage| (page.tree, page.level) == (tree, 0);
    let leaf = built.pages.iter().position(leaf);
    leaf.expect("a leaf")
}

impl Built {
    /// The end-of-file number stays.
    fn move_page(&mut self, page: usize) {
        let mut image = self.image.clone();
        let offset = move_page(&mut image, self, &self.pages[page]);
        self.image = image;
        self.pages[page].offset = offset;
    }

    /// The end-of-file number stays.
    fn move_block(&mut self, number: u64) {
        let mut image = self.image.clone();
        let block = self.blocks.iter().position(|block| block.number == number);
        let block = block.expect("it is placed");
        let offset = move_block(&mut image, self, &self.blocks[block]);
        self.image = image;
        self.blocks[block].offset = offset;
    }

    /// Puts the end so many bytes before the image's last byte, and a step of zeros behind it.
    fn end_before_last(&mut self, bytes: u64) {
        let end = self.image.len() as u64 - bytes;
        self.image.extend_from_slice(&[0; STEP as usize]);
        set_end(&mut self.image, end);
    }
}
