//! `props`.

use crate::images::sound;
use crate::runs::{file, office, run, Run};
use crate::spoilt::{with_block, with_bytes, with_tree};
use model::build::Built;
use model::{Node, Value as PropertyValue};
use serde_json::Value;

#[test]
fn props_lists_every_property() {
    let built = sound();
    let path = file("props.pst", &built.image);
    let (node, heap) = built.heaps.first_key_value().unwrap();
    let answer = run(&["props", "--json"], &path, &[&node.to_string()]);
    assert_eq!(answer.status, 0, "{}", answer.errors);
    let answer = answer.json();
    let listed = answer["properties"].as_array().unwrap();
    assert_eq!(listed.len(), heap.properties.len());
    for (entry, (id, property)) in listed.iter().zip(&heap.properties) {
        assert_eq!(entry["id"], *id);
        assert_eq!(entry["type"], property.kind);
        holds(entry, property.value);
    }
    let text = run(&["props"], &path, &[&node.to_string()]);
    assert_eq!(text.text.lines().count(), listed.len() + 1);
}

fn holds(entry: &Value, value: PropertyValue) {
    match value {
        PropertyValue::Number(number) => assert_eq!(entry["number"], number),
        PropertyValue::Empty => assert_eq!(entry["empty"], true),
        PropertyValue::Item(item) => assert_eq!(entry["item"], item),
        PropertyValue::Subnode(subnode) => assert_eq!(entry["subnode"], subnode),
    }
}

/// Runs `props` on the node both ways, and says that nothing comes before the message.
fn told(name: &str, image: &[u8], node: u32, status: i32, words: &str) -> Run {
    let path = file(name, image);
    let answer = run(&["props", "--json"], &path, &[&node.to_string()]);
    assert_eq!(answer.status, status, "{}", answer.text);
    let run = run(&["props"], &path, &[&node.to_string()]);
    assert_eq!((run.status, run.text.as_str()), (status, ""));
    assert!(run.says(words), "{}", run.errors);
    run
}

/// The image in which the front of the node's first block is a heap's, of that client kind.
fn as_heap(built: &Built, node: &Node, kind: u8) -> Vec<u8> {
    let block = built.block(built.parts(node)[0]).unwrap();
    with_bytes(built, block, &[0, 0, 0xEC, kind])
}

#[test]
fn a_heap_of_several_blocks_is_not_covered() {
    let built = sound();
    let node = with_tree(&built);
    let blocks = built.parts(node).len();
    assert!(blocks > 1);
    let words = format!("bytes in {blocks} blocks");
    let image = as_heap(&built, node, 0xBC);
    let run = told("several.pst", &image, node.node, 4, &words);
    assert!(run.says("is a property heap of several blocks, which is not covered"));
}

#[test]
fn data_that_is_no_property_heap_is_told_by_what_it_is() {
    let built = sound();
    let node = with_block(&built);
    let length = built.data(node).len();
    let words = format!("is no property heap: its data, {length} bytes in 1 block, begins with");
    told("plain.pst", &built.image, node.node, 4, &words);
    let words =
        "begins as a heap of client kind 0x7c does (a table, which the command `table` shows)";
    told(
        "table.pst",
        &as_heap(&built, node, 0x7C),
        node.node,
        4,
        words,
    );
    let tree = with_tree(&built);
    let run = told("plain_tree.pst", &built.image, tree.node, 4, "begins with");
    assert!(!run.says("heap of several blocks"), "{}", run.errors);
    let lines = run_office("0x200284");
    assert!(lines.says("10,692 bytes in 3 blocks, begins with 4c 69 6e 65"));
    assert!(run_office("0x2002a4").says("is no property heap: it has no data"));
}

fn run_office(node: &str) -> Run {
    let run = run(&["props"], &office(), &[node]);
    assert_eq!((run.status, run.text.as_str()), (4, ""));
    run
}

#[test]
fn a_property_heap_of_a_wrong_shape_is_damage() {
    let built = sound();
    let (&number, heap) = built.heaps.first_key_value().unwrap();
    let node = built.nodes.iter().find(|node| node.node == number).unwrap();
    let block = built.block(node.data).unwrap();
    let image = with_bytes(&built, block, &[0, 0, 0xEC, 0xBC]);
    told("shape.pst", &image, number, 1, "(refusal 18)");
    let mut bytes = heap.block.clone();
    bytes[4..8].copy_from_slice(&[0xE0, 0xFF, 0, 0]);
    told(
        "root_item.pst",
        &with_bytes(&built, block, &bytes),
        number,
        1,
        "(refusal 19)",
    );
}
