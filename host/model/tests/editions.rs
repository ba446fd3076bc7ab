//! The edition of 32 bits, place by place. Headers, pages and trailers are put together here by the numbers
//! that the documents give (02, 7/13; 003, 2.2.2.6 to 2.2.2.8), without the builder's help.

use model::edition::Edition;
use model::page::Tree;
use model::{
    check_blocks, check_nodes, checksum, find_block, find_node, find_nodes, header, next_block,
    next_node, read_block, read_node, room, room32, signature, test_block, Answer, Block, Lookup,
    Node, Reference, Refusal,
};
use std::collections::BTreeSet;

const FIRST: usize = 0x4400;
const TREES: [Tree; 2] = [Tree::Nodes, Tree::Blocks];

fn refused<T>(number: u64, place: usize) -> Answer<T> {
    Err(Refusal::new(number, place as u64))
}

fn put(image: &mut [u8], at: usize, bytes: &[u8]) {
    image[at..at + bytes.len()].copy_from_slice(bytes);
}

fn put_four(image: &mut [u8], at: usize, number: u64) {
    put(image, at, &(number as u32).to_le_bytes());
}

fn seal(image: &mut [u8]) {
    let sum = checksum(&image[8..479]);
    put_four(image, 4, sum.into());
}

/// So many bytes with a header of version 14; all that no rule looks at is set.
fn headed(length: usize) -> Vec<u8> {
    let mut image = vec![0xC3; length];
    put(&mut image, 0, &[0x21, 0x42, 0x44, 0x4E]);
    put(&mut image, 8, &[0x53, 0x4D, 14, 0]);
    put_four(&mut image, 168, length as u64);
    for (at, number) in [(184, 0x21EBC), (188, 0x4400), (192, 0x21EB4), (196, 0x4600)] {
        put_four(&mut image, at, number);
    }
    put(&mut image, 460, &[0x80, 1]);
    seal(&mut image);
    image
}

/// The header's answer after some bytes were changed and it was sealed.
fn with(at: usize, bytes: &[u8]) -> Answer<model::Header> {
    let mut image = headed(600);
    put(&mut image, at, bytes);
    seal(&mut image);
    header(&image)
}

#[test]
fn what_a_header_says() {
    let said = header(&headed(600)).expect("a header");
    assert_eq!((said.method, said.end), (1, 600));
    assert_eq!((said.nodes.number, said.nodes.offset), (0x21EBC, 0x4400));
    assert_eq!((said.blocks.number, said.blocks.offset), (0x21EB4, 0x4600));
    assert_eq!((said.edition, said.edition.bits()), (Edition::Bits32, 32));
    assert_eq!(with(10, &[15, 0]), Ok(said));
    assert_eq!(Edition::Bits64.bits(), 64);
}

#[test]
fn versions() {
    for version in (0..300).chain([0x0E00, 0x1700, 0x170E, 0xFFFF]) {
        let said = with(10, &u16::to_le_bytes(version));
        match version {
            14 | 15 => assert_eq!(said.map(|said| said.edition), Ok(Edition::Bits32)),
            // The second checksum of 64 bits is that of no such header.
            23 => assert_eq!(said, refused(4, 524)),
            _ => assert_eq!(said, refused(3, 10), "{version}"),
        }
    }
}

/// A byte under the checksum tells; a byte behind it does not, nor those where 64 bits have something.
#[test]
fn one_checksum() {
    let whole = headed(600);
    for at in 0..whole.len() {
        let mut image = whole.clone();
        image[at] ^= 1;
        let said = header(&image);
        match at {
            0..=3 => assert_eq!(said, refused(2, 0)),
            8 | 9 => assert_eq!(said, refused(2, 8)),
            // 14 becomes 15, or a version that there is not.
            10 => assert_eq!(said, refused(4, 4)),
            11 => assert_eq!(said, refused(3, 10)),
            4..=7 | 12..=478 => assert_eq!(said, refused(4, 4), "{at}"),
            _ => assert_eq!(said, header(&whole), "{at}"),
        }
    }
}

#[test]
fn sentinel_and_method() {
    for byte in 0..=255 {
        let sentinel = with(460, &[byte]).map(|said| said.method);
        let method = with(461, &[byte]).map(|said| said.method);
        if byte == 0x80 {
            assert_eq!(sentinel, Ok(1));
        } else {
            assert_eq!(sentinel, refused(5, 460));
        }
        if byte <= 2 {
            assert_eq!(method, Ok(byte));
        } else {
            assert_eq!(method, refused(5, 461));
        }
    }
}

#[test]
fn where_the_file_ends() {
    for end in [0, 1, 167, 168, 563, 599, 600_u32] {
        let said = with(168, &end.to_le_bytes());
        assert_eq!(said.map(|said| said.end), Ok(u64::from(end)));
    }
    for end in [601, 1 << 31, u32::MAX] {
        assert_eq!(with(168, &end.to_le_bytes()), refused(1, 168));
    }
    // The number has four bytes.
    assert!(with(172, &[0xFF; 4]).is_ok());
    assert!(with(164, &[0xFF; 4]).is_ok());
}

#[test]
fn lengths() {
    for length in [0, 479, 512, 563] {
        assert_eq!(header(&headed(600)[..length]), refused(1, 0));
    }
    assert!(header(&headed(564)).is_ok());
}

/// Each test of the header with every later one broken as well.
#[test]
fn order_of_the_tests() {
    let mut image = headed(600);
    put_four(&mut image, 168, 601);
    seal(&mut image);
    assert_eq!(header(&image), refused(1, 168));
    image[461] = 3;
    seal(&mut image);
    assert_eq!(header(&image), refused(5, 461));
    image[460] = 0;
    seal(&mut image);
    assert_eq!(header(&image), refused(5, 460));
    image[4] ^= 1;
    assert_eq!(header(&image), refused(4, 4));
    image[10] = 16;
    assert_eq!(header(&image), refused(3, 10));
    image[8] = 0;
    assert_eq!(header(&image), refused(2, 8));
    image[0] = 0;
    assert_eq!(header(&image), refused(2, 0));
}

/// A page, and the number and offset that name it.
#[derive(Clone)]
struct Given {
    tree: Tree,
    level: u8,
    room: u8,
    number: u64,
    offset: usize,
    /// Fields of four bytes, or of two in a block's listing.
    entries: Vec<Vec<u8>>,
}

fn entry_size(tree: Tree, level: u8) -> usize {
    match (tree, level) {
        (Tree::Nodes, 0) => 16,
        _ => 12,
    }
}

fn most(tree: Tree, level: u8) -> u8 {
    match (tree, level) {
        (Tree::Nodes, 0) => 31,
        _ => 41,
    }
}

fn kind(tree: Tree) -> u8 {
    match tree {
        Tree::Nodes => 0x81,
        Tree::Blocks => 0x80,
    }
}

fn fours(fields: &[u64]) -> Vec<u8> {
    let bytes = fields.iter().map(|&field| (field as u32).to_le_bytes());
    bytes.flatten().collect()
}

fn write(image: &mut [u8], page: &Given) {
    let size = entry_size(page.tree, page.level);
    let bytes = &mut image[page.offset..page.offset + 512];
    for (at, entry) in page.entries.iter().enumerate() {
        put(bytes, at * size, entry);
    }
    let count = page.entries.len() as u8;
    put(bytes, 496, &[count, page.room, size as u8, page.level]);
    put(bytes, 500, &[kind(page.tree); 2]);
    put_four(bytes, 504, page.number);
    seal_page(bytes, page.offset);
}

fn seal_page(bytes: &mut [u8], offset: usize) {
    let number = u32::from_le_bytes(bytes[504..508].try_into().unwrap());
    let signed = signature(offset as u64, number.into());
    put(bytes, 502, &signed.to_le_bytes());
    let sum = checksum(&bytes[..500]);
    put_four(bytes, 508, sum.into());
}

/// An image of those pages. The first of each tree is its root.
fn image_with(pages: &[Given]) -> Vec<u8> {
    let mut image = headed(FIRST + 9 * 512);
    for (tree, at) in [(Tree::Nodes, 184), (Tree::Blocks, 192)] {
        if let Some(root) = pages.iter().find(|page| page.tree == tree) {
            put_four(&mut image, at, root.number);
            put_four(&mut image, at + 4, root.offset as u64);
        }
    }
    for page in pages {
        write(&mut image, page);
    }
    seal(&mut image);
    image
}

fn keys(count: usize) -> impl Iterator<Item = u64> {
    (0..count as u64).map(|at| 0x20 + 4 * at)
}

fn leaf(tree: Tree, count: usize) -> Given {
    let entry = |key: u64| match tree {
        Tree::Nodes => fours(&[key, key + 0x1000, key + 0x2000, key + 0x3000]),
        Tree::Blocks => {
            let counts = [
                (key as u16 + 1).to_le_bytes(),
                (key as u16 + 2).to_le_bytes(),
            ];
            [fours(&[key, 0x4400 + 64 * key]), counts.concat()].concat()
        }
    };
    Given {
        tree,
        level: 0,
        room: most(tree, 0),
        number: 0xFEDC_BA98,
        offset: FIRST,
        entries: keys(count).map(entry).collect(),
    }
}

fn check(image: &[u8], tree: Tree) -> Answer<()> {
    match tree {
        Tree::Nodes => check_nodes(image),
        Tree::Blocks => check_blocks(image),
    }
}

#[test]
fn entries_of_a_leaf() {
    let nodes = image_with(&[leaf(Tree::Nodes, 31)]);
    let blocks = image_with(&[leaf(Tree::Blocks, 41)]);
    for key in keys(31) {
        let entry = Node {
            node: key as u32,
            data: key + 0x1000,
            subnode: key + 0x2000,
            parent: key as u32 + 0x3000,
        };
        let found = Ok(Lookup::Found { pages: 1, entry });
        assert_eq!(find_node(&nodes, key), found);
        assert_eq!(find_node(&nodes, key | 7 << 32), found);
        assert_eq!(next_node(&nodes, key - 3), found);
    }
    for key in keys(41) {
        let entry = Block {
            block: key,
            offset: 0x4400 + 64 * key,
            size: key as u16 + 1,
            references: key as u16 + 2,
        };
        let found = Ok(Lookup::Found { pages: 1, entry });
        assert_eq!(find_block(&blocks, key), found);
        assert_eq!(find_block(&blocks, key | 1), found);
        assert_eq!(next_block(&blocks, key - 3), found);
    }
}

/// At most 31 and 41 entries, and as much room.
#[test]
fn counts_of_a_leaf() {
    for tree in TREES {
        let most = most(tree, 0);
        for (count, room) in [(0, 0), (1, 1), (1, most), (most, most), (7, 9)] {
            let page = leaf(tree, count.into());
            let image = image_with(&[Given { room, ..page }]);
            assert_eq!(check(&image, tree), Ok(()), "{tree:?} {count} {room}");
        }
    }
}

/// Count, room and entry size of a leaf with three entries, put there and sealed.
fn with_counts(tree: Tree, counts: [u8; 3]) -> Answer<()> {
    let mut image = image_with(&[leaf(tree, 3)]);
    let page = &mut image[FIRST..FIRST + 512];
    put(page, 496, &counts);
    seal_page(page, FIRST);
    check(&image, tree)
}

#[test]
fn wrong_counts_of_a_leaf() {
    for tree in TREES {
        let (over, size) = (most(tree, 0) + 1, entry_size(tree, 0) as u8);
        for (count, room) in [(3, over), (over, over), (4, 3), (42, 41), (255, 255)] {
            assert_eq!(with_counts(tree, [count, room, size]), refused(10, FIRST));
        }
        for wrong in (0..=255).filter(|&wrong| wrong != size) {
            assert_eq!(with_counts(tree, [3, 3, wrong]), refused(10, FIRST));
        }
        assert_eq!(with_counts(tree, [3, 3, size]), Ok(()));
    }
}

/// An index page over a leaf; the root page comes first.
fn index_over(tree: Tree, count: usize) -> [Given; 2] {
    let below = Given {
        offset: FIRST + 512,
        number: 0x77,
        ..leaf(tree, 2)
    };
    let first = fours(&[0x20, 0x77, below.offset as u64]);
    // Nothing stands where the other entries lead.
    let others = (1..count as u64).map(|at| fours(&[0x100 * at, 5, 0xFFFF_FFC0]));
    let entries = [first].into_iter().chain(others).collect();
    let root = Given {
        tree,
        level: 1,
        room: 41,
        number: 0x8000_0001,
        offset: FIRST,
        entries,
    };
    [root, below]
}

#[test]
fn index_pages() {
    for tree in TREES {
        let image = image_with(&index_over(tree, 1));
        assert_eq!(check(&image, tree), Ok(()));
        let image = image_with(&index_over(tree, 41));
        assert_eq!(check(&image, tree), refused(6, 0xFFFF_FFC0));
        let found = match tree {
            Tree::Nodes => find_node(&image, 0x24).map(|found| found.found().is_some()),
            Tree::Blocks => find_block(&image, 0x24).map(|found| found.found().is_some()),
        };
        assert_eq!(found, Ok(true));
        let mut image = image_with(&index_over(tree, 2));
        put(&mut image[FIRST..], 496, &[42, 42]);
        seal_page(&mut image[FIRST..FIRST + 512], FIRST);
        assert_eq!(check(&image, tree), refused(10, FIRST));
    }
}

/// A tree of that level with one page to each, from the root down, and a key in its leaf.
fn chain(tree: Tree, level: u8) -> Vec<Given> {
    let offset = |at: u8| FIRST + 512 * usize::from(level - at);
    let page = |at: u8| Given {
        tree,
        level: at,
        room: most(tree, at),
        number: u64::from(at) + 0x200,
        offset: offset(at),
        entries: if at == 0 {
            leaf(tree, 1).entries
        } else {
            vec![fours(&[0x20, u64::from(at) + 0x1FF, offset(at - 1) as u64])]
        },
    };
    (0..=level).rev().map(page).collect()
}

/// Levels 0 to 7 are allowed at the root.
#[test]
fn every_level() {
    for tree in TREES {
        for level in 0..=7 {
            assert_eq!(check(&image_with(&chain(tree, level)), tree), Ok(()));
        }
        let image = image_with(&chain(tree, 8));
        assert_eq!(check(&image, tree), refused(10, FIRST));
        // A child of another level than the one below.
        let mut pages = chain(tree, 2);
        pages[1].level = 0;
        pages[1].entries = leaf(tree, 1).entries;
        let image = image_with(&pages);
        assert_eq!(check(&image, tree), refused(10, FIRST + 512));
    }
}

/// Bytes 0 to 499 are under the checksum, and no others; the tests come in their order.
#[test]
fn every_byte_of_a_page() {
    for tree in TREES {
        let whole = image_with(&[leaf(tree, 2)]);
        for at in 0..512 {
            let mut image = whole.clone();
            image[FIRST + at] ^= 1;
            let expected = match at {
                500 | 501 => 7,
                502..=507 => 8,
                _ => 9,
            };
            assert_eq!(check(&image, tree), refused(expected, FIRST), "{at}");
        }
        // Over 496 bytes, as 64 bits have it.
        let mut image = whole.clone();
        let sum = checksum(&image[FIRST..FIRST + 496]);
        put_four(&mut image[FIRST..], 508, sum.into());
        assert_eq!(check(&image, tree), refused(9, FIRST));
    }
}

/// The entries of a root page that Outlook wrote, its last 16 bytes, and the offset at which it stood.
type Real = (Tree, usize, [u32; 6], [u8; 16]);

const REAL: [Real; 2] = [
    (
        Tree::Blocks,
        0x5400,
        [4, 0x21E8A, 0xB_1C00, 0x32758, 0x21EB3, 0x5200],
        [
            0x02, 0x29, 0x0C, 0x02, 0x80, 0x80, 0xB6, 0x4A, 0xB4, 0x1E, 0x02, 0x00, 0x27, 0x9C,
            0xCC, 0x56,
        ],
    ),
    (
        Tree::Nodes,
        0xC_7E00,
        [0x21, 0x21EBB, 0xB_E200, 0x20_7864, 0x21E8C, 0xB_DC00],
        [
            0x02, 0x29, 0x0C, 0x02, 0x81, 0x81, 0xB2, 0x60, 0xBC, 0x1E, 0x02, 0x00, 0x7E, 0x70,
            0xDC, 0xE3,
        ],
    ),
];

/// They are sound, and lead to pages that are not there.
#[test]
fn root_pages_of_a_real_file() {
    let mut image = headed(0xC_8000);
    for (tree, offset, entries, end) in REAL {
        let fields = entries.map(u64::from);
        put(&mut image, offset, &[0; 512]);
        put(&mut image, offset, &fours(&fields));
        put(&mut image, offset + 496, &end);
        let at = if tree == Tree::Nodes { 184 } else { 192 };
        put(&mut image, at, &end[8..12]);
        put_four(&mut image, at + 4, offset as u64);
    }
    seal(&mut image);
    assert_eq!(check_blocks(&image), refused(7, 0xB_1C00));
    assert_eq!(check_nodes(&image), refused(7, 0xB_E200));
    assert_eq!(find_block(&image, 3), Ok(Lookup::Absent { pages: 1 }));
    assert_eq!(find_node(&image, 0x20), Ok(Lookup::Absent { pages: 1 }));
    assert_eq!(find_block(&image, 0x32757), refused(7, 0xB_1C00));
    assert_eq!(find_block(&image, 0x32758), refused(7, 0x5200));
    assert_eq!(find_block(&image, 1 << 32), refused(7, 0x5200));
    assert_eq!(find_node(&image, 0x20_7864), refused(7, 0xB_DC00));
}

/// A block by its 32-bit places, as the first of a block tree that lists some more.
fn image_of_block(number: u64, data: &[u8]) -> (Vec<u8>, usize) {
    let offset = FIRST + 512;
    let room = (data.len() + 12).next_multiple_of(64);
    let counts = [(data.len() as u16).to_le_bytes(), [2, 0]].concat();
    let listing = [fours(&[number, offset as u64]), counts].concat();
    let page = Given {
        entries: vec![listing],
        ..leaf(Tree::Blocks, 0)
    };
    let mut image = image_with(&[page]);
    image.resize(offset + room, 0x5A);
    put_four(&mut image, 168, (offset + room) as u64);
    put(&mut image, 460, &[0x80, 0]);
    seal(&mut image);
    put(&mut image, offset, data);
    let trailer = offset + room - 12;
    let signed = signature(offset as u64, number);
    let counts = [(data.len() as u16).to_le_bytes(), signed.to_le_bytes()].concat();
    put(&mut image, trailer, &counts);
    put_four(&mut image, trailer + 4, number);
    put_four(&mut image, trailer + 8, checksum(data).into());
    (image, trailer)
}

#[test]
fn trailer_of_a_block() {
    let data: Vec<u8> = (0..200).collect();
    let (whole, trailer) = image_of_block(0x8000_1234, &data);
    let place = FIRST + 512;
    let mut out = [0; 200];
    assert_eq!(read_block(&whole, 0x8000_1234, &mut out), Ok(200));
    assert_eq!(out[..], data);
    for at in 0..12 {
        for bit in 0..8 {
            let mut image = whole.clone();
            image[trailer + at] ^= 1 << bit;
            let expected = match (at, bit) {
                (4, 0) => Ok(200),
                (0..8, _) => refused(14, place),
                _ => refused(15, place),
            };
            assert_eq!(test_block(&image, 0x8000_1234), expected);
        }
    }
    // Number and checksum in each other's place.
    let mut image = whole.clone();
    image[trailer + 4..trailer + 12].rotate_left(4);
    assert_eq!(test_block(&image, 0x8000_1234), refused(14, place));
    // The end of the file falls on the room's last byte.
    let mut image = whole;
    let end = image.len() as u64 - 1;
    put_four(&mut image, 168, end);
    seal(&mut image);
    assert_eq!(test_block(&image, 0x8000_1234), refused(13, place));
}

#[test]
fn sizes_of_a_block() {
    for size in [1, 52, 53, 8175, 8176, 8177, 8178, 8179, 8180] {
        let data: Vec<_> = (0..size).map(|at| at as u8).collect();
        let (image, _) = image_of_block(4, &data);
        let mut out = vec![0; size];
        assert_eq!(test_block(&image, 4), Ok(size as u16));
        assert_eq!(read_block(&image, 4, &mut out), Ok(size));
        assert_eq!(out, data);
    }
    for size in [0, 8181, 8182, 8191, 65_000] {
        let (image, _) = image_of_block(4, &vec![7; size]);
        assert_eq!(test_block(&image, 4), refused(13, FIRST + 512));
    }
}

#[test]
fn rooms() {
    let cases = [
        (0, 64),
        (1, 64),
        (52, 64),
        (53, 128),
        (8180, 8192),
        (8181, 8256),
    ];
    for (size, expected) in cases {
        assert_eq!(room32(size), expected, "size {size}");
    }
    assert_eq!(room32(u32::MAX), (1 << 32) + 64);
    for size in 0..20_000 {
        let expected = u64::from(size).next_multiple_of(64);
        assert_eq!(room32(size.max(12) - 12), expected.max(64));
        assert_eq!(room(size.max(16) - 16), expected.max(64));
    }
}

/// A node whose data block is that one.
fn image_of_data(number: u64, data: &[u8]) -> Vec<u8> {
    let (mut image, _) = image_of_block(number, data);
    let length = image.len();
    let page = Given {
        offset: length,
        entries: vec![fours(&[0x8022, number, 0, 0x122])],
        ..leaf(Tree::Nodes, 0)
    };
    image.resize(length + 512, 0);
    put_four(&mut image, 184, page.number);
    put_four(&mut image, 188, length as u64);
    put_four(&mut image, 168, length as u64 + 512);
    seal(&mut image);
    write(&mut image, &page);
    image
}

fn tree_of(count: usize, stated: usize, sum: u64) -> Vec<u8> {
    let mut data = vec![1, 1];
    data.extend_from_slice(&(stated as u16).to_le_bytes());
    data.extend_from_slice(&fours(&[sum]));
    data.extend(fours(&vec![0x44; count]));
    data
}

/// No child of it is listed, so that a right shape is 12.
#[test]
fn shapes_of_a_data_tree() {
    let asked = |data: &[u8]| {
        let image = image_of_data(0xA, data);
        read_node(&image, 0x8022, &mut [])
    };
    let place = FIRST + 512;
    for count in [1, 2, 1021, 1022, 2042, 2043] {
        assert_eq!(asked(&tree_of(count, count, 0)), refused(12, 0));
        assert_eq!(asked(&tree_of(count, count + 1, 0)), refused(16, place));
        assert_eq!(asked(&tree_of(count, count - 1, 0)), refused(16, place));
    }
    assert_eq!(asked(&tree_of(2044, 2044, 0)), refused(13, place));
    assert_eq!(asked(&tree_of(0, 0, 0)), refused(16, place));
    assert_eq!(asked(&tree_of(1, 1, 0)[..7]), refused(16, place));
    // Eight bytes a child, as 64 bits have it.
    let wide = [&[1, 1, 1, 0, 0, 0, 0, 0][..], &[0x44, 0, 0, 0, 0, 0, 0, 0]].concat();
    assert_eq!(asked(&wide), refused(16, place));
    for (at, byte) in [(0, 2), (1, 2), (8, 0x46)] {
        let mut data = tree_of(3, 3, 0);
        data[at] = byte;
        assert_eq!(asked(&data), refused(16, place));
    }
}

/// Numbers are compared as numbers, whatever their low bytes.
#[test]
fn numbers_of_33_bits() {
    let (image, _) = image_of_block(0x10, &[7; 9]);
    for high in [1, 2, 0x8000_0000, 0xFFFF_FFFF_u64] {
        for low in [0x10, 0x11, 0, 0x12, 0xFFFF_FFFF] {
            let number = high << 32 | low;
            let absent = Ok(Lookup::Absent { pages: 1 });
            assert_eq!(find_block(&image, number), absent);
            assert_eq!(next_block(&image, number), absent);
            assert_eq!(test_block(&image, number), refused(12, 0));
            assert_eq!(read_block(&image, number, &mut []), refused(12, 0));
        }
    }
    let nodes = image_with(&[leaf(Tree::Nodes, 3)]);
    let [low, high] = [0x24, 9 << 32 | 0x24].map(|node| find_node(&nodes, node));
    assert_eq!(low, high);
    let mut places = [0; 18];
    assert_eq!(
        find_nodes(&nodes, &[0x24, 9 << 32 | 0x24], &mut places),
        Ok(())
    );
    assert_eq!(places[..9], places[9..]);
}

/// The numbers of both layouts, each said once more by itself.
#[test]
fn layouts() {
    let said = Edition::BOTH.map(|edition| {
        let layout = edition.layout();
        let sizes = [layout.index, layout.block_leaf, layout.node_leaf];
        (
            layout.width,
            sizes.map(|entries| (entries.size, entries.most)),
            (layout.most_size, layout.most_children, layout.row_number),
            layout.highest(),
        )
    });
    let wide = [(24, 20), (24, 20), (32, 15)];
    let narrow = [(12, 41), (12, 41), (16, 31)];
    assert_eq!(said[0], (8, wide, (8176, 1021, 4), u64::MAX));
    assert_eq!(said[1], (4, narrow, (8180, 2043, 2), u32::MAX.into()));
    // Node data has at most so many bytes.
    assert_eq!(1021 * 8176, 8_347_696);
    assert_eq!(2043 * 8180, 16_711_740);
    let reference = Reference {
        number: 0x1_0000_0005,
        offset: 0x4400,
    };
    let mut bytes = [0; 8];
    Edition::Bits32
        .layout()
        .put_reference(&mut bytes, 0, reference);
    assert_eq!(bytes, [5, 0, 0, 0, 0, 0x44, 0, 0]);
}

#[test]
fn edition_of_an_image() {
    assert_eq!(Edition::of(&headed(600)), Edition::Bits32);
    let versions: BTreeSet<_> = (0..=u16::MAX)
        .filter_map(|version| Some((version, Edition::of_version(version)?)))
        .collect();
    let expected = [
        (14, Edition::Bits32),
        (15, Edition::Bits32),
        (23, Edition::Bits64),
    ];
    assert_eq!(versions, expected.into());
    assert_eq!(Edition::of(&[0; 11]), Edition::Bits64);
    assert_eq!(Edition::of(&[14; 600]), Edition::Bits64);
}
