//! The two editions: how a file of each is told, and where they differ.

mod images;

use images::{sample, sound, sound_of};
use model::build::limits::{children, sizes};
use model::build::seal::{seal_header, set_end};
use rekwonuda::{
    BlockId, Edition, Fault, Image, Node, NodeId, Refusal, LARGEST_BLOCK, LONGEST_DATA,
};

const BOTH: [(Edition, model::Edition); 2] = [
    (Edition::Bits64, model::Edition::Bits64),
    (Edition::Bits32, model::Edition::Bits32),
];

fn refusal(fault: Fault, place: u64) -> Refusal {
    Refusal {
        fault,
        place,
        more: 0,
    }
}

/// A 32-bit image with that byte at that place of the header, which is sealed again.
fn old_with(place: usize, byte: u8) -> Vec<u8> {
    let mut image = sound_of(model::Edition::Bits32).image;
    image[place] = byte;
    model::Edition::Bits32.layout().seal_header(&mut image);
    image
}

#[test]
fn editions_are_told_by_the_version() {
    let told = [13, 14, 15, 16, 22, 23, 24, 36, 14 << 8].map(Edition::of_version);
    let [old, new] = [Some(Edition::Bits32), Some(Edition::Bits64)];
    let wanted = [None, old, old, None, None, new, None, None, None];
    assert_eq!(told, wanted);
    for (edition, built) in BOTH {
        let image = sound_of(built).image;
        let header = Image::new(&image).header().unwrap();
        assert_eq!(header.edition, edition);
        assert_eq!(header.end, image.len() as u64);
    }
    let image = std::fs::read(sample()).unwrap();
    assert_eq!(
        Image::new(&image).header().unwrap().edition,
        Edition::Bits64
    );
    let header = Image::new(&old_with(10, 15)).header();
    assert_eq!(header.unwrap().edition, Edition::Bits32);
}

#[test]
fn editions_differ_in_what_is_at_most() {
    let both = [Edition::Bits64, Edition::Bits32];
    assert_eq!(both.map(Edition::bits), [64, 32]);
    assert_eq!(both.map(Edition::width), [8, 4]);
    assert_eq!(both.map(Edition::largest_block), [8_176, 8_180]);
    assert_eq!(both.map(Edition::most_listed), [1_021, 2_043]);
    assert_eq!(both.map(Edition::longest_data), [8_347_696, 16_711_740]);
    assert_eq!([LARGEST_BLOCK, LONGEST_DATA], [8_180, 16_711_740]);
    let rooms = |size| both.map(|edition| edition.room(size));
    assert_eq!(rooms(48), [64, 64]);
    assert_eq!(rooms(49), [128, 64]);
    assert_eq!(rooms(52), [128, 64]);
    assert_eq!(rooms(53), [128, 128]);
    assert_eq!(
        both.map(|edition| edition.to_string()),
        ["64-bit", "32-bit"]
    );
}

#[test]
fn the_largest_blocks_are_read() {
    for (edition, built) in BOTH {
        let largest = edition.largest_block();
        let built = sizes(built, &[largest, largest + 1]);
        let image = Image::new(&built.image);
        let listed: Vec<_> = image.blocks().map(Result::unwrap).collect();
        let data = image.block_data(listed[0].id).unwrap();
        assert_eq!(data, built.blocks[0].data);
        let too_long = refusal(Fault::BlockOffset, listed[1].offset);
        assert_eq!(image.block_data(listed[1].id), Err(too_long));
    }
}

#[test]
fn the_widest_data_trees_are_read() {
    for (edition, built) in BOTH {
        let most = edition.most_listed();
        let built = children(built, most);
        let image = Image::new(&built.image);
        let node = image.nodes().map(Result::unwrap).find(Node::has_data_tree);
        let node = node.expect("it has a data tree");
        assert_eq!(image.data_blocks(node.data.unwrap()).unwrap().len(), most);
        let data = image.node_data(node.id).unwrap().unwrap();
        assert_eq!(data.len(), 30 * most);
    }
}

#[test]
fn the_header_of_a_32_bit_file_is_tested_where_its_fields_stand() {
    let told = |image: &[u8]| Image::new(image).header().map(drop);
    let encoding = |place| Err(refusal(Fault::Encoding, place));
    assert_eq!(told(&old_with(460, 0)), encoding(460));
    assert_eq!(told(&old_with(461, 3)), encoding(461));
    assert_eq!(told(&old_with(512, 0)), Ok(()));
    assert_eq!(told(&old_with(524, 1)), Ok(()));
    let mut image = sound_of(model::Edition::Bits32).image;
    image[100] ^= 1;
    assert_eq!(told(&image), Err(refusal(Fault::HeaderChecksum, 4)));
    let mut image = sound_of(model::Edition::Bits32).image;
    let end = image.len() as u64;
    set_end(&mut image, end + 1);
    assert_eq!(told(&image), Err(refusal(Fault::ImageLength, 168)));
    set_end(&mut image, end - 1);
    assert_eq!(Image::new(&image).hanging().unwrap().len(), 1);
}

#[test]
fn a_file_is_read_by_its_version_alone() {
    let mut image = sound().image;
    image[10] = 14;
    let sum = refusal(Fault::HeaderChecksum, 4);
    assert_eq!(Image::new(&image).header(), Err(sum));
    seal_header(&mut image);
    let sentinel = refusal(Fault::Encoding, 460);
    assert_eq!(Image::new(&image).header(), Err(sentinel));
    let second = refusal(Fault::HeaderChecksum, 524);
    assert_eq!(Image::new(&old_with(10, 23)).header(), Err(second));
    let version = refusal(Fault::Version, 10);
    assert_eq!(Image::new(&old_with(10, 16)).check_nodes(), Err(version));
    assert_eq!(Image::new(&old_with(11, 1)).check_nodes(), Err(version));
}

#[test]
fn a_number_that_a_32_bit_file_has_no_room_for_names_no_block() {
    let built = sound_of(model::Edition::Bits32);
    let image = Image::new(&built.image);
    let block = image.blocks().next().unwrap().unwrap().id;
    let beyond = BlockId(block.0 | 1 << 32);
    assert_eq!(image.find_block(beyond).unwrap().entry, None);
    assert_eq!(image.next_block(BlockId(1 << 32)).unwrap().entry, None);
    let unlisted = refusal(Fault::BlockUnlisted, 0);
    assert_eq!(image.test_block(beyond), Err(unlisted));
    let node = built.nodes[0].node;
    let [found] = image.find_nodes(&[u64::from(node) | 1 << 32])[..] else {
        panic!("one number has one answer")
    };
    assert_eq!(found, image.find_node(NodeId(node)));
}
