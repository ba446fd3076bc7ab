//! The library's Rust face: what it answers is what was built, or what the sample is known to hold.

mod images;

use images::{sample, sound, sound_of};
use model::build::seal::seal_page;
use model::build::{build, Built, Plan};
use model::damage::{spoil, BLOCK};
use model::page::Tree;
use model::random::Random;
use model::Edition;
use rekwonuda::{
    checksum, room, room32, signature, BlockId, Fault, Heap, Image, ItemId, Method, NodeId,
    Refusal, Value,
};

#[test]
fn the_sample_is_answered_as_known() {
    let bytes = std::fs::read(sample()).unwrap();
    let image = Image::new(&bytes);
    let header = image.header().unwrap();
    assert_eq!(
        (header.method, header.nodes.number, header.nodes.offset),
        (Method::None, 131, 27136)
    );
    assert_eq!((header.blocks.number, header.blocks.offset), (138, 24576));
    assert_eq!((header.end, image.hanging()), (27_648, Ok(&[][..])));
    let refusal = image.check_nodes().unwrap_err();
    assert_eq!(
        refusal,
        Refusal {
            fault: Fault::PageKind,
            place: 26624,
            more: 0
        }
    );
    assert_eq!(image.check_blocks().unwrap_err().place, 21504);
    let node = image.find_node(NodeId(0x122)).unwrap();
    assert_eq!(
        (node.pages, node.entry.unwrap().data),
        (2, Some(BlockId(76)))
    );
    let absent = image.find_node(NodeId(0x20)).unwrap();
    assert_eq!((absent.pages, absent.entry), (1, None));
    let block = image.find_block(BlockId(0x40)).unwrap().entry.unwrap();
    assert_eq!((block.offset, block.size, block.references), (29248, 38, 2));
    assert_eq!(image.test_block(BlockId(4)).unwrap_err().number(), 14);
    assert_eq!(image.node_data(NodeId(0x1E1)), Ok(Some(Vec::new())));
    assert_eq!(image.node_data(NodeId(0x20)), Ok(None));
}

#[test]
fn lists_are_what_was_built() {
    for edition in Edition::BOTH {
        lists_are_of(&sound_of(edition));
    }
}

fn lists_are_of(built: &Built) {
    let image = Image::new(&built.image);
    let nodes: Vec<u32> = image.nodes().map(|node| node.unwrap().id.0).collect();
    let placed: Vec<u32> = built.nodes.iter().map(|node| node.node).collect();
    assert_eq!(nodes, placed);
    let blocks: Vec<u64> = image.blocks().map(|block| block.unwrap().id.0).collect();
    let mut placed: Vec<u64> = built.blocks.iter().map(|block| block.number).collect();
    placed.sort_unstable();
    assert_eq!(blocks, placed);
}

#[test]
fn a_refused_list_ends_with_its_refusal() {
    let bytes = std::fs::read(sample()).unwrap();
    let listed: Vec<_> = Image::new(&bytes).blocks().collect();
    let (last, before) = listed.split_last().unwrap();
    assert_eq!(last.unwrap_err().fault, Fault::PageKind);
    assert!(before.iter().all(Result::is_ok));
    let mut nodes = Image::new(b"").nodes();
    assert!(nodes.next().unwrap().is_err());
    assert!(nodes.next().is_none() && nodes.next().is_none());
    let mut properties = Heap::new(b"").properties();
    assert!(properties.next().unwrap().is_err());
    assert!(properties.next().is_none() && properties.next().is_none());
}

/// An image with one page a tree, in which the last key of the tree is the highest that there is.
fn with_highest_key(tree: Tree, entry: usize, key: &[u8]) -> Built {
    let plan = Plan {
        bare_nodes: 3,
        spare_blocks: 3,
        most_size: 9,
        tidy: true,
        ..Plan::default()
    };
    let mut built = build(1, &plan);
    let offset = built
        .pages
        .iter()
        .find(|page| page.tree == tree)
        .unwrap()
        .offset;
    let at = offset + 2 * entry;
    built.image[at..at + key.len()].copy_from_slice(key);
    seal_page(&mut built.image, offset);
    built
}

#[test]
fn a_list_ends_behind_the_highest_key() {
    let built = with_highest_key(Tree::Nodes, 32, &[0xFF; 4]);
    let nodes: Vec<_> = Image::new(&built.image)
        .nodes()
        .map(Result::unwrap)
        .collect();
    assert_eq!((nodes.len(), nodes[2].id), (3, NodeId(u32::MAX)));
    let built = with_highest_key(Tree::Blocks, 24, &[0xFF; 8]);
    let blocks: Vec<_> = Image::new(&built.image)
        .blocks()
        .map(Result::unwrap)
        .collect();
    assert_eq!((blocks.len(), blocks[2].id), (3, BlockId(u64::MAX)));
}

#[test]
fn blocks_and_nodes_are_read_decoded() {
    for edition in Edition::BOTH {
        are_read_decoded(&sound_of(edition));
    }
}

fn are_read_decoded(built: &Built) {
    let image = Image::new(&built.image);
    for block in &built.blocks {
        let mut out = [0xAA; 8_181];
        let length = image.read_block(BlockId(block.number), &mut out).unwrap();
        assert_eq!(out[..length], block.data);
        assert!(out[length..].iter().all(|byte| *byte == 0xAA));
        let refusal = image
            .read_block(BlockId(block.number), &mut out[..length - 1])
            .unwrap_err();
        assert_eq!((refusal.number(), refusal.more), (17, length as u64));
        assert_eq!(image.block_data(BlockId(block.number)).unwrap(), block.data);
    }
    for node in &built.nodes {
        let data = built.data(node);
        let id = NodeId(node.node);
        assert_eq!(image.test_node(id).unwrap(), Some(data.len()));
        assert_eq!(image.node_data(id).unwrap(), Some(data));
    }
}

#[test]
fn data_blocks_are_those_that_were_built() {
    for edition in Edition::BOTH {
        data_blocks_are_of(&sound_of(edition));
    }
}

fn data_blocks_are_of(built: &Built) {
    let image = Image::new(&built.image);
    for node in image.nodes().map(Result::unwrap) {
        let placed = built.nodes.iter().find(|placed| placed.node == node.id.0);
        let parts = built.parts(placed.unwrap());
        let listed = node
            .data
            .map_or(Ok(Vec::new()), |data| image.data_blocks(data));
        let numbers: Vec<u64> = listed.unwrap().into_iter().map(u64::from).collect();
        assert_eq!(numbers, parts);
        assert_eq!(node.has_data_tree(), parts.len() > 1);
    }
}

/// How many nodes have a data block that is no list though it is internal. Such a node is refused as
/// its list is; of one that is accepted, the listed blocks have the data's length.
fn lists_refused(image: Image<'_>) -> usize {
    let mut refused = 0;
    for node in image.nodes().map_while(Result::ok) {
        let tested = image.test_node(node.id);
        match node.data.map(|data| image.data_blocks(data)) {
            None => assert_eq!(tested, Ok(Some(0))),
            Some(Err(refusal)) => {
                assert_eq!(tested, Err(refusal));
                refused += usize::from(refusal.fault == Fault::DataTree);
            }
            Some(Ok(blocks)) => {
                let sizes = blocks.iter().map(|block| image.test_block(*block));
                if let Ok(length) = tested {
                    assert_eq!(sizes.sum::<Result<usize, Refusal>>().ok(), length);
                }
            }
        }
    }
    refused
}

#[test]
fn a_data_tree_that_is_no_list_is_refused_as_its_node_is() {
    for edition in Edition::BOTH {
        is_refused_as_its_node_is(&sound_of(edition));
    }
}

fn is_refused_as_its_node_is(built: &Built) {
    let mut random = Random::new(1);
    assert_eq!(lists_refused(Image::new(&built.image)), 0);
    let mut refused = 0;
    for damage in BLOCK.iter().cycle().take(40 * BLOCK.len()) {
        let image = spoil(built, *damage, true, &mut random).image;
        refused += lists_refused(Image::new(&image));
    }
    assert!(refused > 40, "{refused}");
}

#[test]
fn heaps_hand_out_their_items_and_properties() {
    let built = sound();
    for heap in built.heaps.values() {
        let block = Heap::new(&heap.block);
        block.test().unwrap();
        for (item, number) in heap.items.iter().zip((0x20..).step_by(0x20)) {
            block.test_item(ItemId(number)).unwrap();
            assert_eq!(block.item(ItemId(number)).unwrap(), item);
        }
        assert_eq!(block.item(ItemId(0)).unwrap_err().fault, Fault::HeapItem);
        let listed: Vec<_> = block.properties().map(Result::unwrap).collect();
        assert_eq!(listed.len(), heap.properties.len());
        for ((id, property), found) in heap.properties.iter().zip(listed) {
            assert_eq!(block.find_property(*id), Ok(Some(found)));
            assert_eq!((found.id, found.type_code), (*id, property.kind));
            assert_eq!(found.value, value(property.value));
        }
        assert_eq!(block.client_kind(), Ok(Heap::PROPERTIES));
    }
    assert_eq!(Heap::new(b"").test().unwrap_err().fault, Fault::HeapShape);
}

fn value(value: model::Value) -> Value {
    match value {
        model::Value::Number(number) => Value::Number(number),
        model::Value::Empty => Value::Empty,
        model::Value::Item(item) => Value::Item(ItemId(item)),
        model::Value::Subnode(subnode) => Value::Subnode(NodeId(subnode)),
    }
}

#[test]
fn bare_calls_answer_as_the_rules_say() {
    assert_eq!(checksum(&[]), 0);
    assert_eq!(checksum(&[0x80]), 0xEDB8_8320);
    assert_eq!(signature(0x0090_8A00, 0x1518), 0x9F88);
    assert_eq!(room(4_092), 4_160);
    assert_eq!([52, 53, 8_180].map(room32), [64, 128, 8_192]);
    let mut bytes: Vec<u8> = (0..16).collect();
    Method::Cyclic.encode(BlockId(0x1518), &mut bytes);
    assert_eq!(bytes[..4], [0x37, 0x98, 0xAE, 0x32]);
    Method::Cyclic.decode(BlockId(0x1518), &mut bytes);
    assert_eq!(bytes, (0..16).collect::<Vec<u8>>());
}

#[test]
fn refusals_say_what_is_wrong_and_where() {
    let said = |number: u64, place, more| {
        let fault = Fault::from(number);
        Refusal { fault, place, more }.to_string()
    };
    assert_eq!(said(9, 0x6A00, 0), "refusal 9: the checksum of a page differs: its bytes are not those that were written; at 0x6a00 (27136)");
    assert_eq!(
        said(17, 0, 108),
        "refusal 17: the buffer is shorter than the data; 108 bytes are needed"
    );
    assert_eq!(
        said(2, 0, 0),
        "refusal 2: the file does not begin with the mark of a .pst file; at 0x0 (0)"
    );
    assert_eq!(
        said(1, 0, 0),
        "refusal 1: the image is under 564 or over 1,073,741,824 bytes long"
    );
    assert_eq!(said(1, 184, 0), "refusal 1: the image is shorter than its header says, as of a file that was cut short; at 0xb8 (184)");
    assert_eq!(
        said(1, 168, 0),
        said(1, 184, 0).replace("0xb8 (184)", "0xa8 (168)")
    );
    assert_eq!(
        said(3, 10, 0),
        "refusal 3: the version is none of 14, 15 and 23; at 0xa (10)"
    );
    for (old, place) in [(460, 512), (461, 513)] {
        let [told, other] = [old, place].map(|place| said(5, place, 0));
        let [told, other] = [&told, &other].map(|told| told.split_once("; at "));
        assert_eq!(told.unwrap().0, other.unwrap().0);
    }
    assert_eq!(said(5, 0, 0), "refusal 5: the encoding method is over 2");
    assert_eq!(said(23, 0, 0), "refusal 23: the shape of a table is wrong");
    assert_eq!(said(11, 0x4E00, 3), "refusal 11: an entry's key is not above the one before it, as in a page that was shuffled or overwritten; entry 3 (counted from 0) of the page at 0x4e00 (19968)");
    assert_eq!(said(21, 0x4E00, 0), "refusal 21: a key lies outside its page's range, as in a stale page: one of another place or time; entry 0 (counted from 0) of the page at 0x4e00 (19968)");
    assert_eq!(
        said(99, 1, 0),
        "refusal 99: a fault without a name; at 0x1 (1)"
    );
}

/// Every fault and its number, as the proved library gives them.
fn proved_faults() -> Vec<(&'static str, u64)> {
    let source = include_str!("../../../crates/refusal/src/lib.rt");
    let arms = source.lines().filter_map(|line| {
        let (name, number) = line.trim().strip_prefix("Fault::")?.split_once(" => ")?;
        Some((name, number.strip_suffix(',')?.parse().ok()?))
    });
    arms.collect()
}

#[test]
fn faults_are_those_of_the_proved_library() {
    let proved = proved_faults();
    assert_eq!(proved.len(), 22);
    for (name, number) in &proved {
        let fault = Fault::from(*number);
        let refusal = Refusal {
            fault,
            place: 0,
            more: 0,
        };
        assert_eq!(format!("{fault:?}"), *name);
        assert_eq!(fault.number(), *number);
        assert_ne!(refusal.meaning(), "a fault without a name");
    }
    for number in (0..99).chain([u64::MAX]) {
        let fault = Fault::from(number);
        let is_named = proved.iter().any(|(_, proved)| *proved == number);
        assert_eq!(fault.number(), number);
        assert_eq!(matches!(fault, Fault::Unnamed(_)), !is_named);
    }
}

#[test]
fn numbers_are_shown_as_a_reader_writes_them() {
    assert_eq!(
        format!("{:>8}|{:#010x}", NodeId(0x122), NodeId(0x122)),
        "   0x122|0x00000122"
    );
    assert_eq!(BlockId::from(0x1A).to_string(), "0x1a");
    assert_eq!(format!("{:<8}|", Method::Cyclic), "cyclic  |");
    for (number, method) in [Method::None, Method::Permute, Method::Cyclic]
        .iter()
        .enumerate()
    {
        assert_eq!(usize::from(method.number()), number);
    }
}
