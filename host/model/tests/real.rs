//! Pages and a header that Outlook wrote (`samples/mini.img`): only the two leaf pages that the image
//! holds can be reached.

use model::{check_nodes, find_block, find_node, header, Lookup, Refusal};
use std::fs;
use std::ops::Range;

fn image() -> Vec<u8> {
    let path = concat!(env!("CARGO_MANIFEST_DIR"), "/../../samples/mini.img");
    fs::read(path).expect("the sample")
}

#[test]
fn header_of_a_real_file() {
    let header = header(&image()).expect("a header");
    assert_eq!(header.method, 0);
    assert_eq!((header.nodes.number, header.nodes.offset), (0x83, 0x6A00));
    assert_eq!((header.blocks.number, header.blocks.offset), (0x8A, 0x6000));
    assert_eq!(header.end, image().len() as u64);
}

#[test]
fn nodes_of_a_real_file() {
    let image = image();
    let nodes = [
        0x21, 0x61, 0x122, 0x12D, 0x12E, 0x12F, 0x1E1, 0x201, 0x261, 0x60D, 0x60E, 0x60F, 0x610,
        0x62B,
    ];
    for number in nodes {
        let Ok(Lookup::Found { pages: 2, entry }) = find_node(&image, number) else {
            panic!("node {number:x} is not found on two pages");
        };
        assert_eq!(u64::from(entry.node), number);
    }
    assert_eq!(find_node(&image, 0x20), Ok(Lookup::Absent { pages: 1 }));
    assert_eq!(find_node(&image, 0x64C), Err(Refusal::new(7, 0x6800)));
    assert_eq!(find_node(&image, 0x804F), Err(Refusal::new(6, 0x6E00)));
    assert_eq!(check_nodes(&image), Err(Refusal::new(7, 0x6800)));
}

#[test]
fn blocks_of_a_real_file() {
    let image = image();
    let blocks = [
        4, 8, 0xC, 0x10, 0x14, 0x18, 0x1C, 0x24, 0x34, 0x38, 0x40, 0x4C, 0x5C, 0x64, 0x6C, 0x70,
    ];
    for number in blocks {
        let Ok(Lookup::Found { pages: 2, entry }) = find_block(&image, number) else {
            panic!("block {number:x} is not found on two pages");
        };
        assert_eq!(entry.block, number);
    }
    assert_eq!(find_block(&image, 0x74), Err(Refusal::new(7, 0x5400)));
}

fn data(name: &str) -> Vec<u8> {
    let folder = concat!(env!("CARGO_MANIFEST_DIR"), "/../../crates/");
    fs::read(format!("{folder}{name}")).expect("a file of the worked examples")
}

fn listed(name: &str) -> Vec<u8> {
    let text = String::from_utf8(data(name)).expect("hexadecimal text");
    let bytes = text.split_whitespace();
    bytes
        .map(|digits| u8::from_str_radix(digits, 16).expect("a byte"))
        .collect()
}

/// Where two things of one length differ.
fn changed(one: &[u8], other: &[u8]) -> Vec<usize> {
    assert_eq!(one.len(), other.len());
    (0..one.len()).filter(|at| one[*at] != other[*at]).collect()
}

const NUMBER_AND_CHECKSUMS: [Range<usize>; 3] = [184..192, 4..8, 524..528];
const NUMBER_AND_CHECKSUM_32: [Range<usize>; 2] = [168..172, 4..8];

/// The header says where the whole file ended, behind the bytes that are there. The copy, which ends with
/// them, differs alone in that number, which is the first of these places, and in the header's checksums.
fn assert_ended(cut: &[u8], ended: &[u8], may_change: &[Range<usize>]) {
    assert_eq!(
        header(cut),
        Err(Refusal::new(1, may_change[0].start as u64))
    );
    let header = header(ended).expect("a header");
    assert_eq!(header.end, ended.len() as u64);
    for at in changed(cut, ended) {
        assert!(may_change.iter().any(|range| range.contains(&at)), "{at}");
    }
}

#[test]
fn parts_of_real_files_end_where_they_were_cut() {
    let ended = data("vectors/data/real_mini_ended.img");
    assert_eq!(ended, image());
    let cut = data("vectors/data/real_mini_64bit.img");
    assert_ended(&cut, &ended, &NUMBER_AND_CHECKSUMS);
    let cut = listed("vectors/data/3.2_header.hex");
    let ended = listed("vectors/data/3.2_header_ended.hex");
    assert_ended(&cut, &ended, &NUMBER_AND_CHECKSUMS);
    let mut cut = listed("vectors32/data/real_header_32bit.hex");
    cut.resize(564, 0);
    let ended = listed("vectors32/data/real_header_ended_32bit.hex");
    assert_ended(&cut, &ended, &NUMBER_AND_CHECKSUM_32);
}

/// The pages of the node tree stand elsewhere than in the file, and the signature is of the offset.
#[test]
fn images_of_a_real_32_bit_file_hold_its_pages() {
    let (roots, leaves) = ("real_roots_32bit.img", "real_leaves_32bit.img");
    for (image, page, offset, moved) in [
        (roots, "real_bbt_root_32bit.hex", 0x5400, &[][..]),
        (roots, "real_nbt_root_32bit.hex", 0x7E00, &[502]),
        (leaves, "real_bbt_leaf_32bit.hex", 0xD400, &[]),
        (leaves, "real_nbt_leaf_32bit.hex", 0x8400, &[502]),
    ] {
        let image = data(&format!("vectors32/data/{image}"));
        let page = listed(&format!("vectors32/data/{page}"));
        assert_eq!(changed(&page, &image[offset..offset + 512]), moved);
    }
}
