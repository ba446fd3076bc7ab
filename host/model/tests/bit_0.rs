//! Bit 0 of a block's number, rule by rule: where it counts as zero and where it counts.

use model::build::bit_0::{
    data_one, data_one_alone, data_trees, highest, index_keys, listed, page_number, range_end,
    ticket, trailers, twins,
};
use model::build::seal::{seal_block, seal_header, seal_page};
use model::build::{build, build_small_loose, Built, PlacedBlock, PlacedPage, Plan};
use model::coding::CYCLIC;
use model::edition::Edition;
use model::images::images;
use model::page::Tree;
use model::{
    check_blocks, check_nodes, decode, encode, find_block, find_node, next_block, read_block,
    read_node, signature, test_block, Answer, Block, Lookup, Refusal,
};

fn put(image: &mut [u8], at: usize, number: u64) {
    image[at..at + 8].copy_from_slice(&number.to_le_bytes());
}

fn as_listed(block: &PlacedBlock) -> Block {
    Block {
        block: block.number,
        offset: block.offset as u64,
        size: block.size,
        references: block.references,
    }
}

fn read(image: &[u8], block: u64) -> Answer<Vec<u8>> {
    let mut out = vec![0; 8176];
    let length = read_block(image, block, &mut out)?;
    out.truncate(length);
    Ok(out)
}

fn node_bytes(image: &[u8], node: u64) -> Answer<Option<Vec<u8>>> {
    let mut out = vec![0; 65_536];
    let length = read_node(image, node, &mut out)?;
    Ok(length.map(|length| out[..length].to_vec()))
}

fn root(built: &Built, tree: Tree) -> &PlacedPage {
    let is_root = |page: &&PlacedPage| page.tree == tree && page.is_root;
    built.pages.iter().find(is_root).expect("a root page")
}

fn leaf_of(built: &Built, tree: Tree, key: u64) -> &PlacedPage {
    let holds =
        |page: &&PlacedPage| page.tree == tree && page.level == 0 && page.keys.contains(&key);
    built.pages.iter().find(holds).expect("a leaf")
}

/// The image with another key in a page, which is sealed again.
fn with_key(built: &Built, page: &PlacedPage, at: usize, key: u64) -> Vec<u8> {
    let mut image = built.image.clone();
    put(
        &mut image,
        page.offset + built.layout().entries(page.tree, page.level).size * at,
        key,
    );
    seal_page(&mut image, page.offset);
    image
}

fn refused<T>(number: u64, page: &PlacedPage) -> Answer<T> {
    Err(Refusal::new(number, page.offset as u64))
}

fn out_of_order<T>(page: &PlacedPage, at: usize) -> Answer<T> {
    Err(Refusal::key_order(page.offset as u64, at))
}

fn out_of_range<T>(page: &PlacedPage, at: usize) -> Answer<T> {
    Err(Refusal::key_range(page.offset as u64, at))
}

/// A number and the number with bit 0 the other way get one answer, field for field and byte for
/// byte; the number answered is the listed one.
#[test]
fn sought_either_way() {
    for seed in 0..60 {
        let built = build_small_loose(seed);
        for block in &built.blocks {
            let [one, other] = [block.number, block.number ^ 1];
            let found = find_block(&built.image, one);
            assert_eq!(found.map(Lookup::found), Ok(Some(as_listed(block))));
            assert_eq!(found, find_block(&built.image, other));
            assert_eq!(test_block(&built.image, other), Ok(block.size));
            assert_eq!(read(&built.image, one), Ok(block.data.clone()));
            assert_eq!(read(&built.image, other), Ok(block.data.clone()));
            let mut short = [7; 3];
            let by_one = read_block(&built.image, one, &mut short);
            assert_eq!(by_one, read_block(&built.image, other, &mut short));
            assert!(block.size <= 3 || short == [7; 3]);
        }
    }
}

#[test]
fn file_of_the_ticket() {
    let built = ticket(Edition::Bits64);
    let heap = &built.heaps[&0x8022];
    assert_eq!(built.nodes[0].data, 0x1519);
    assert_eq!(built.block_numbers(), [0x1518]);
    assert_eq!(check_blocks(&built.image), Ok(()));
    for node in [0x8022, 0x8042] {
        let bytes = node_bytes(&built.image, node);
        assert_eq!(bytes, Ok(Some(heap.block.clone())));
    }
    for (&id, property) in &heap.properties {
        let found = model::find_property(&heap.block, id);
        assert_eq!(found, Ok(Some(*property)));
    }
    let named = find_node(&built.image, 0x8022).map(Lookup::found);
    assert_eq!(
        named.map(|node| node.map(|node| node.data)),
        Ok(Some(0x1519))
    );
    assert_eq!(node_bytes(&built.image, 0x8062), Err(Refusal::new(12, 0)));
    assert_eq!(
        find_block(&built.image, 0x151D),
        Ok(Lookup::Absent { pages: 1 })
    );
}

#[test]
fn equal_keys_in_a_leaf() {
    let built = twins(Edition::Bits64);
    let leaf = leaf_of(&built, Tree::Blocks, 0x1519);
    assert_eq!(leaf.keys, [0x1518, 0x1519]);
    assert_eq!(check_blocks(&built.image), out_of_order(leaf, 1));
    for number in [0x1518, 0x1519, 0x151A, u64::MAX] {
        assert_eq!(find_block(&built.image, number), out_of_order(leaf, 1));
        assert_eq!(test_block(&built.image, number), out_of_order(leaf, 1));
        assert_eq!(read(&built.image, number), out_of_order(leaf, 1));
    }
    for number in [0x1515, 0x1518, 0x1519] {
        assert_eq!(next_block(&built.image, number), out_of_order(leaf, 1));
    }
    // Off the path to that leaf.
    for number in [0x1510, 0x1511, 0x1514] {
        assert!(test_block(&built.image, number).is_ok());
    }
    assert_eq!(
        find_block(&built.image, 0x1516),
        Ok(Lookup::Absent { pages: 2 })
    );
}

#[test]
fn equal_keys_in_an_index_page() {
    let built = index_keys(Edition::Bits64);
    let page = root(&built, Tree::Blocks);
    assert_eq!(page.keys, [0x101, 0x109]);
    for (first, second) in [(0x101, 0x100), (0x100, 0x101), (0x108, 0x109)] {
        let mut image = with_key(&built, page, 0, first);
        put(&mut image, page.offset + 24, second);
        seal_page(&mut image, page.offset);
        assert_eq!(check_blocks(&image), out_of_order(page, 1));
        assert_eq!(find_block(&image, 0x110), out_of_order(page, 1));
        assert_eq!(next_block(&image, 0), out_of_order(page, 1));
    }
}

/// The chosen image of this depth has index keys 4 and 5.
#[test]
fn chosen_image_with_equal_keys() {
    let images = images();
    let image = images.iter().find(|image| image.name == "permute-level-2");
    let image = &image.expect("the image").bytes;
    assert_eq!(check_nodes(image), Ok(()));
    assert_eq!(check_blocks(image), Err(Refusal::key_order(0x4B40, 1)));
    assert_eq!(next_block(image, 0), Err(Refusal::key_order(0x4B40, 1)));
    assert_eq!(test_block(image, 0xC), Ok(80));
}

/// Nodes that differ in bit 0 alone are different nodes.
#[test]
fn nodes_keep_all_bits() {
    let plan = Plan {
        bare_nodes: 2,
        tidy: true,
        ..Plan::default()
    };
    let built = build(1, &plan);
    let page = root(&built, Tree::Nodes);
    assert_eq!(page.keys, [0x8022, 0x8042]);
    let image = with_key(&built, page, 1, 0x8023);
    assert_eq!(check_nodes(&image), Ok(()));
    for node in [0x8022, 0x8023] {
        let found = find_node(&image, node).map(Lookup::found);
        assert_eq!(
            found.map(|found| found.map(|found| u64::from(found.node))),
            Ok(Some(node))
        );
    }
    assert_eq!(find_node(&image, 0x8021), Ok(Lookup::Absent { pages: 1 }));
}

/// A range begins and ends at cleared keys.
#[test]
fn ranges_of_cleared_keys() {
    let built = range_end(Edition::Bits64);
    let (page, leaf) = (
        root(&built, Tree::Blocks),
        leaf_of(&built, Tree::Blocks, 0x104),
    );
    assert_eq!(leaf.keys, [0x100, 0x104]);
    // The next index key is the leaf's last, with bit 0 on either side or on both.
    for (last, behind) in [
        (0x104, 0x105),
        (0x105, 0x104),
        (0x105, 0x105),
        (0x104, 0x104),
    ] {
        let mut image = with_key(&built, page, 1, behind);
        put(&mut image, leaf.offset + 24, last);
        seal_page(&mut image, leaf.offset);
        assert_eq!(check_blocks(&image), out_of_range(leaf, 1));
        assert_eq!(find_block(&image, 0x100), out_of_range(leaf, 1));
        // Sought in the leaf behind it, and not there.
        assert_eq!(find_block(&image, 0x104), Ok(Lookup::Absent { pages: 2 }));
        assert_eq!(test_block(&image, 0x105), Err(Refusal::new(12, 0)));
    }
    let last = with_key(&built, page, 1, 0x107);
    assert_eq!(check_blocks(&last), Ok(()));
    // The index key is the leaf's first, with bit 0.
    let next = leaf_of(&built, Tree::Blocks, 0x108);
    for key in [0x108, 0x109] {
        let image = with_key(&built, page, 1, key);
        assert_eq!(check_blocks(&image), Ok(()));
        assert_eq!(test_block(&image, 0x108), Ok(220));
        assert_eq!(test_block(&image, 0x109), Ok(220));
    }
    let image = with_key(&built, page, 1, 0x10A);
    assert_eq!(check_blocks(&image), out_of_range(next, 0));
}

/// The same of nodes, whose keys count with bit 0.
#[test]
fn ranges_of_nodes() {
    let plan = Plan {
        node_level: 1,
        bare_nodes: 3,
        tidy: true,
        ..Plan::default()
    };
    let built = build(1, &plan);
    let page = root(&built, Tree::Nodes);
    let leaf = leaf_of(&built, Tree::Nodes, 0x8022);
    assert_eq!(page.keys, [0x8022]);
    assert_eq!(check_nodes(&with_key(&built, page, 0, 0x8021)), Ok(()));
    assert_eq!(
        check_nodes(&with_key(&built, page, 0, 0x8023)),
        out_of_range(leaf, 0)
    );
}

#[test]
fn index_keys_with_the_bit() {
    let built = index_keys(Edition::Bits64);
    let image = &built.image;
    assert_eq!(check_blocks(image), Ok(()));
    for block in &built.blocks {
        for number in [block.number, block.number ^ 1] {
            let entry = as_listed(block);
            assert_eq!(
                find_block(image, number),
                Ok(Lookup::Found { pages: 3, entry })
            );
        }
        assert_eq!(read(image, block.number), Ok(block.data.clone()));
    }
    for node in &built.nodes {
        let bytes = node_bytes(image, u64::from(node.node));
        assert_eq!(bytes, Ok(Some(built.data(node))));
    }
}

/// `from` counts with bit 0, the keys without: also where in an index page to start.
#[test]
fn listing_from_a_number() {
    let built = index_keys(Edition::Bits64);
    let cases = [
        (0, 3, 0x100),
        (0xFF, 3, 0x100),
        (0x100, 3, 0x100),
        (0x101, 4, 0x104),
        (0x103, 4, 0x104),
        (0x104, 3, 0x104),
        (0x105, 5, 0x108),
        (0x108, 3, 0x108),
        (0x109, 3, 0x10C),
        (0x10E, 3, 0x110),
        (0x10D, 4, 0x110),
    ];
    for (from, pages, number) in cases {
        let Ok(Lookup::Found { pages: read, entry }) = next_block(&built.image, from) else {
            panic!("none from {from:x}");
        };
        assert_eq!((read, entry.block), (pages, number), "from {from:x}");
    }
    assert_eq!(
        next_block(&built.image, 0x115),
        Ok(Lookup::Absent { pages: 3 })
    );
    let listed = listed(Edition::Bits64, 0);
    let next = |from| {
        let found = next_block(&listed.image, from).map(Lookup::found);
        found.map(|found| found.map(|block| block.block))
    };
    assert_eq!(next(0x1518), Ok(Some(0x1519)));
    // It is listed, but its key is the number below.
    assert_eq!(next(0x1519), Ok(Some(0x1523)));
    assert_eq!(next(0x1523), Ok(None));
}

/// From 0, each time one above the number found.
fn list(image: &[u8]) -> Vec<u64> {
    let mut numbers = Vec::new();
    let mut from = Some(0);
    while let Some(block) = from.and_then(|from| next_block(image, from).expect("a list").found()) {
        assert!(numbers.last() < Some(&block.block), "it does not move on");
        numbers.push(block.block);
        from = block.block.checked_add(1);
    }
    numbers
}

#[test]
fn listing_goes_through_once() {
    for seed in 0..60 {
        let built = build_small_loose(seed);
        let mut numbers = built.block_numbers();
        numbers.sort_unstable();
        assert_eq!(list(&built.image), numbers);
    }
}

#[test]
fn highest_numbers() {
    let built = highest(Edition::Bits64);
    let image = &built.image;
    let [low, high] = [&built.blocks[0], &built.blocks[1]];
    assert_eq!(built.block_numbers(), [u64::MAX - 2, u64::MAX]);
    assert_eq!(check_blocks(image), Ok(()));
    for (number, block) in [
        (u64::MAX - 3, low),
        (u64::MAX - 2, low),
        (u64::MAX - 1, high),
        (u64::MAX, high),
    ] {
        let entry = as_listed(block);
        assert_eq!(
            find_block(image, number),
            Ok(Lookup::Found { pages: 1, entry })
        );
        assert_eq!(read(image, number), Ok(block.data.clone()));
    }
    let next = |from| next_block(image, from).map(Lookup::found);
    assert_eq!(next(u64::MAX - 1), Ok(Some(as_listed(high))));
    assert_eq!(next(u64::MAX - 2), Ok(Some(as_listed(high))));
    assert_eq!(next_block(image, u64::MAX), Ok(Lookup::Absent { pages: 1 }));
    assert_eq!(list(image), [u64::MAX - 2, u64::MAX]);
    for node in &built.nodes {
        let bytes = node_bytes(image, u64::from(node.node));
        assert_eq!(bytes, Ok(Some(built.data(node))));
    }
}

#[test]
fn children_either_way() {
    let built = data_trees(Edition::Bits64);
    assert_eq!(built.block_numbers(), [0x20, 0x24, 0x29, 0x2D, 0x33, 0x36]);
    assert_eq!(built.trees[&0x33], [0x21, 0x25, 0x28, 0x2D, 0x20]);
    for node in &built.nodes {
        let bytes = node_bytes(&built.image, u64::from(node.node));
        assert_eq!(bytes, Ok(Some(built.data(node))));
    }
}

/// The cyclic key is that of the number as listed.
#[test]
fn listed_with_the_bit() {
    for method in 0..3 {
        let built = listed(Edition::Bits64, method);
        let block = &built.blocks[0];
        assert_eq!((block.number, block.data.len()), (0x1519, 300));
        for node in &built.nodes {
            let bytes = node_bytes(&built.image, u64::from(node.node));
            assert_eq!(bytes, Ok(Some(built.data(node))));
        }
        let stored = &built.image[block.offset..block.offset + 300];
        let mut as_listed = stored.to_vec();
        decode(method, 0x1519, &mut as_listed).expect("a method");
        assert_eq!(as_listed, block.data);
        let mut as_cleared = stored.to_vec();
        decode(method, 0x1518, &mut as_cleared).expect("a method");
        assert_eq!(as_cleared == block.data, method != CYCLIC);
    }
}

#[test]
fn trailers_of_the_other_number() {
    let built = trailers(Edition::Bits64);
    let image = &built.image;
    for block in &built.blocks[..2] {
        assert_eq!(read(image, block.number), Ok(block.data.clone()));
    }
    // A signature of the cleared number; bit 0 and another bit of the trailer's number.
    for block in &built.blocks[2..4] {
        for number in [block.number, block.number ^ 1] {
            let refusal = Refusal::new(14, block.offset as u64);
            assert_eq!(test_block(image, number), Err(refusal));
            assert_eq!(read(image, number), Err(refusal));
        }
    }
    // Encoded under the cleared number: other bytes, and no refusal.
    let coded = &built.blocks[4];
    let mut bytes = coded.data.clone();
    encode(CYCLIC, 0x50, &mut bytes).expect("a method");
    decode(CYCLIC, 0x51, &mut bytes).expect("a method");
    assert_ne!(bytes, coded.data);
    assert_eq!(read(image, 0x51), Ok(bytes.clone()));
    assert_eq!(read(image, 0x50), Ok(bytes));
}

#[test]
fn every_bit_of_a_trailers_number() {
    for built in [ticket(Edition::Bits64), listed(Edition::Bits64, 1)] {
        let block = &built.blocks[0];
        let place = built.layout().trailer_at(block.offset, block.size) + 8;
        for bit in 0..64 {
            for also in [0, 1] {
                let mut image = built.image.clone();
                put(&mut image, place, block.number ^ 1 << bit ^ also);
                let expected = if bit == 0 {
                    Ok(block.size)
                } else {
                    Err(Refusal::new(14, block.offset as u64))
                };
                assert_eq!(test_block(&image, 0x1518), expected, "bit {bit}");
            }
        }
    }
}

/// A listed number with bit 0 the other way asks for another signature.
#[test]
fn signature_of_the_listed_number() {
    let built = ticket(Edition::Bits64);
    let block = &built.blocks[0];
    let mut image = with_key(&built, root(&built, Tree::Blocks), 0, 0x1519);
    let refusal = Refusal::new(14, block.offset as u64);
    assert_eq!(test_block(&image, 0x1518), Err(refusal));
    seal_block(&mut image, block.offset, block.size, 0x1519);
    assert_eq!(test_block(&image, 0x1518), Ok(block.size));
    let trailer = built.layout().trailer_at(block.offset, block.size);
    put(&mut image, trailer + 8, 0x1518);
    assert_eq!(test_block(&image, 0x1518), Ok(block.size));
}

#[test]
fn data_block_one() {
    let built = data_one(Edition::Bits64);
    let image = &built.image;
    assert_eq!(built.blocks[0].number, 1);
    for node in [0x8022, 0x8042] {
        let mut out = [7; 400];
        assert_eq!(read_node(image, node, &mut out), Ok(Some(0)));
        assert_eq!(read_node(image, node, &mut []), Ok(Some(0)));
        assert_eq!(out, [7; 400]);
    }
    // A child 1 or 0 is looked up, and so is a block.
    let [one, ten] = [&built.blocks[0], &built.blocks[1]];
    let bytes = [&one.data[..], &one.data, &ten.data].concat();
    assert_eq!(node_bytes(image, 0x8062), Ok(Some(bytes)));
    assert_eq!(node_bytes(image, 0x8082), Ok(Some(ten.data.clone())));
    for number in [0, 1] {
        assert_eq!(read(image, number), Ok(one.data.clone()));
        assert_eq!(
            find_block(image, number).map(Lookup::found),
            Ok(Some(as_listed(one)))
        );
    }
    assert_eq!(
        next_block(image, 0).map(Lookup::found),
        Ok(Some(as_listed(one)))
    );
    assert_eq!(
        next_block(image, 1).map(Lookup::found),
        Ok(Some(as_listed(ten)))
    );
}

#[test]
fn child_one_that_is_not_listed() {
    let built = data_one(Edition::Bits64);
    let (leaf, tree) = (root(&built, Tree::Blocks), &built.blocks[2]);
    let mut image = with_key(&built, leaf, 0, 4);
    assert_eq!(node_bytes(&image, 0x8062), Err(Refusal::new(12, 0)));
    put(&mut image, tree.offset + 8, 0);
    seal_block(&mut image, tree.offset, tree.size, tree.number);
    assert_eq!(node_bytes(&image, 0x8062), Err(Refusal::new(12, 0)));
    assert_eq!(node_bytes(&image, 0x8042), Ok(Some(Vec::new())));
}

/// The BBT is not looked at for it.
#[test]
fn data_block_one_and_no_block_tree() {
    let built = data_one_alone(Edition::Bits64);
    let page = root(&built, Tree::Blocks);
    assert_eq!(check_blocks(&built.image), refused(7, page));
    for node in [0x8022, 0x8042] {
        assert_eq!(node_bytes(&built.image, node), Ok(Some(Vec::new())));
    }
    assert_eq!(node_bytes(&built.image, 0x8062), refused(7, page));
    assert_eq!(find_block(&built.image, 1), refused(7, page));
    let mut image = built.image.clone();
    put(&mut image, 240, u64::MAX - 63);
    seal_header(&mut image);
    assert_eq!(node_bytes(&image, 0x8042), Ok(Some(Vec::new())));
    assert_eq!(
        node_bytes(&image, 0x8082),
        Err(Refusal::new(6, u64::MAX - 63))
    );
}

#[test]
fn page_numbers_keep_all_bits() {
    let built = page_number(Edition::Bits64);
    let page = root(&built, Tree::Blocks);
    assert_eq!(check_blocks(&built.image), refused(8, page));
    assert_eq!(find_block(&built.image, 4), refused(8, page));
    let built = index_keys(Edition::Bits64);
    let (page, leaf) = (
        root(&built, Tree::Blocks),
        leaf_of(&built, Tree::Blocks, 0x100),
    );
    let below = built
        .pages
        .iter()
        .find(|page| page.tree == Tree::Blocks && page.level == 1);
    let below = below.expect("a page of level 1");
    let mut image = built.image.clone();
    image[page.offset + 8] ^= 1;
    seal_page(&mut image, page.offset);
    assert_eq!(check_blocks(&image), refused(8, below));
    // In the page itself, under the signature of the one number and of the other.
    let mut image = built.image.clone();
    image[leaf.offset + 504] ^= 1;
    assert_eq!(check_blocks(&image), refused(8, leaf));
    seal_page(&mut image, leaf.offset);
    assert_eq!(check_blocks(&image), refused(8, leaf));
    assert_eq!(test_block(&image, 0x101), refused(8, leaf));
}

/// The bare calls take the number as given.
#[test]
fn numbers_as_given() {
    assert_ne!(signature(0x4400, 0x1518), signature(0x4400, 0x1519));
    let plain: Vec<u8> = (0..=255).collect();
    let [mut one, mut other] = [plain.clone(), plain.clone()];
    assert_eq!(encode(CYCLIC, 0x1518, &mut one), Ok(()));
    assert_eq!(encode(CYCLIC, 0x1519, &mut other), Ok(()));
    assert_ne!(one, other);
    assert_eq!(decode(CYCLIC, 0x1519, &mut other), Ok(()));
    assert_eq!(other, plain);
}
