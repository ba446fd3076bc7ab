//! The end of the file, as the header states it: where pages and blocks must end, and what hangs on
//! behind.

mod images;

use images::{sample, sound};
use model::build::seal::{seal_block, seal_header, seal_page};
use model::build::Built;
use model::damage::{spoil, BLOCK, KEYS, PAGE};
use model::page::Tree;
use model::random::Random;
use rekwonuda::{BlockId, Fault, Image, NodeId, Refusal};
use std::fmt::Debug;

const SAMPLE: u64 = 27_648;

/// Behind the sample's end: page 132, which the node tree's root names for nodes from 0x804F on, and
/// right behind it block 0x34, which the block tree lists with 140 bytes.
const NEXT_PAGE: usize = 28_160;
const NEXT_BLOCK: usize = 28_672;
const LONGER: u64 = 28_864;

/// The image with that end-of-file number, and a header sealed again.
fn ending(mut image: Vec<u8>, end: u64) -> Vec<u8> {
    image[184..192].copy_from_slice(&end.to_le_bytes());
    seal_header(&mut image);
    image
}

fn mini() -> Vec<u8> {
    std::fs::read(sample()).expect("the sample can be read")
}

/// The sample with that page and block behind it: a leaf with one node, which has no data.
fn longer() -> Vec<u8> {
    let mut image = mini();
    image.resize(LONGER as usize, 0);
    let page = &mut image[NEXT_PAGE..NEXT_BLOCK];
    page[..2].copy_from_slice(&[0x4F, 0x80]);
    page[488..492].copy_from_slice(&[1, 15, 32, 0]);
    page[496..498].fill(0x81);
    page[504] = 132;
    seal_page(&mut image, NEXT_PAGE);
    seal_block(&mut image, NEXT_BLOCK, 140, 0x34);
    image
}

fn refusal(fault: Fault, place: usize) -> Refusal {
    Refusal {
        fault,
        place: place as u64,
        more: 0,
    }
}

#[test]
fn the_number_is_at_most_the_length() {
    for end in [0, 563, 17_920, SAMPLE - 1, SAMPLE] {
        let image = ending(mini(), end);
        assert_eq!(
            Image::new(&image).header().map(|header| header.end),
            Ok(end)
        );
    }
    for end in [SAMPLE + 1, 1 << 30, u64::MAX] {
        let image = ending(mini(), end);
        let image = Image::new(&image);
        let short = refusal(Fault::ImageLength, 184);
        assert_eq!(image.header(), Err(short));
        assert_eq!(image.hanging(), Err(short));
        assert_eq!(image.check_nodes(), Err(short));
        assert_eq!(image.check_blocks(), Err(short));
        assert_eq!(image.find_node(NodeId(0x122)), Err(short));
        assert_eq!(image.find_nodes(&[0x122])[0], Err(short));
        assert_eq!(image.next_block(BlockId(0)), Err(short));
        assert_eq!(image.test_block(BlockId(4)), Err(short));
        assert_eq!(image.node_data(NodeId(0x122)), Err(short));
        assert_eq!(image.wrong_node_keys().count(), 0);
    }
}

#[test]
fn the_number_is_the_last_test_of_the_header() {
    for (at, fault, place) in [
        (0, Fault::Magic, 0),
        (8, Fault::Magic, 8),
        (10, Fault::Version, 10),
        (512, Fault::Encoding, 512),
        (513, Fault::Encoding, 513),
    ] {
        let mut image = mini();
        image[at] ^= 4;
        let image = ending(image, SAMPLE + 1);
        assert_eq!(Image::new(&image).header(), Err(refusal(fault, place)));
    }
    let mut image = ending(mini(), SAMPLE + 1);
    image[100] ^= 1;
    let sum = refusal(Fault::HeaderChecksum, 4);
    assert_eq!(Image::new(&image).header(), Err(sum));
}

#[test]
fn pages_and_blocks_end_at_the_number_or_before() {
    let node = |end| {
        let image = ending(longer(), end);
        let found = Image::new(&image).find_node(NodeId(0x804F));
        found.map(|lookup| lookup.entry.expect("it is there").id.0)
    };
    let behind = Err(refusal(Fault::PageOffset, NEXT_PAGE));
    assert_eq!(node(LONGER), Ok(0x804F));
    assert_eq!(node(NEXT_BLOCK as u64), Ok(0x804F));
    assert_eq!(node(NEXT_BLOCK as u64 - 1), behind);
    assert_eq!(node(SAMPLE), behind);

    let block = |end| Image::new(&ending(longer(), end)).test_block(BlockId(0x34));
    let behind = Err(refusal(Fault::BlockOffset, NEXT_BLOCK));
    assert_eq!(block(LONGER), Ok(140));
    assert_eq!(block(LONGER - 1), behind);
    assert_eq!(block(SAMPLE), behind);
    let data = Image::new(&ending(longer(), SAMPLE)).node_data(NodeId(0x61));
    assert_eq!(data.map(drop), behind.map(drop));
}

#[test]
fn the_last_page_of_a_tree_ends_at_the_number_or_before() {
    let built = sound();
    for tree in [Tree::Nodes, Tree::Blocks] {
        let pages = built.pages.iter().filter(|page| page.tree == tree);
        let last = pages.map(|page| page.offset).max().expect("it has pages");
        let check = |end: usize| {
            let image = ending(built.image.clone(), end as u64);
            match tree {
                Tree::Nodes => Image::new(&image).check_nodes(),
                Tree::Blocks => Image::new(&image).check_blocks(),
            }
        };
        assert_eq!(check(last + 512), Ok(()));
        assert_eq!(check(last + 511), Err(refusal(Fault::PageOffset, last)));
    }
}

#[test]
fn with_a_number_of_0_the_header_is_accepted_and_no_page_is() {
    let image = ending(sound().image, 0);
    let image = Image::new(&image);
    let header = image.header().expect("0 is at most the length");
    assert_eq!(header.end, 0);
    for (answer, root) in [
        (image.check_nodes(), header.nodes),
        (image.check_blocks(), header.blocks),
        (image.next_node(NodeId(0)).map(drop), header.nodes),
        (image.test_block(BlockId(4)).map(drop), header.blocks),
    ] {
        assert_eq!(
            answer,
            Err(refusal(Fault::PageOffset, root.offset as usize))
        );
    }
}

#[test]
fn what_hangs_on_is_handed_out() {
    let image = ending(longer(), SAMPLE);
    let hanging = Image::new(&image)
        .hanging()
        .expect("the header is accepted");
    assert_eq!(hanging, &image[SAMPLE as usize..]);
    assert_eq!(hanging.len() as u64, LONGER - SAMPLE);
    for (end, length) in [(LONGER, 0), (LONGER - 1, 1), (565, LONGER - 565)] {
        let image = ending(longer(), end);
        let hanging = Image::new(&image).hanging();
        assert_eq!(hanging.map(<[u8]>::len), Ok(length as usize));
    }
    // The header itself is no part of it, whatever it says.
    for end in [564, 563, 0] {
        let image = ending(longer(), end);
        let hanging = Image::new(&image).hanging();
        assert_eq!(hanging.map(<[u8]>::len), Ok(LONGER as usize - 564));
    }
}

/// All that the calls say of an image, in words.
fn answers(image: &[u8], built: &Built) -> Vec<String> {
    fn words(answer: impl Debug) -> String {
        format!("{answer:?}")
    }
    let image = Image::new(image);
    let nodes = built.node_numbers();
    let mut answers = vec![
        words(image.header()),
        words((image.check_nodes(), image.check_blocks())),
        words(image.nodes().collect::<Vec<_>>()),
        words(image.blocks().collect::<Vec<_>>()),
        words(image.wrong_node_keys().collect::<Vec<_>>()),
        words(image.wrong_block_keys().collect::<Vec<_>>()),
        words(image.find_nodes(&nodes)),
    ];
    answers.extend(nodes.iter().map(|node| {
        let data = image.node_data(NodeId(*node as u32));
        words((image.find_node(NodeId(*node as u32)), data))
    }));
    answers.extend(built.block_numbers().into_iter().map(|block| {
        let data = image.block_data(BlockId(block));
        words((image.find_block(BlockId(block)), data))
    }));
    answers
}

/// Zeros, other bytes, and what looks like older pages and blocks.
fn tails(built: &Built) -> [Vec<u8>; 4] {
    let old = built.image[0x4400..].to_vec();
    [vec![0], vec![0; 4_096], vec![0xAA; 777], old]
}

#[test]
fn what_hangs_on_changes_no_answer() {
    let built = sound();
    let mut random = Random::new(5);
    let mut images = vec![built.image.clone(), longer(), ending(longer(), SAMPLE)];
    for damage in PAGE.iter().chain(KEYS).chain(BLOCK) {
        images.push(spoil(&built, *damage, true, &mut random).image);
    }
    let mut refused = 0;
    for image in images {
        let Ok(header) = Image::new(&image).header() else {
            continue;
        };
        let file = &image[..header.end.max(564) as usize];
        let told = answers(file, &built);
        refused += usize::from(told[1] != "(Ok(()), Ok(()))");
        assert_eq!(answers(&image, &built), told);
        for tail in tails(&built) {
            assert_eq!(answers(&[file, &tail].concat(), &built), told);
        }
    }
    assert!(refused > 20, "{refused}");
}
