//! `info`, `nodes` and `blocks`.

use crate::check::root_page;
use crate::images::{sample, sound};
use crate::runs::{file, run};
use model::build::bit_0::data_one;
use model::build::{build, Plan};
use model::page::Tree;
use model::Edition;

#[test]
fn info_tells_the_counts() {
    let built = sound();
    let path = file("info.pst", &built.image);
    let answer = run(&["info", "--json"], &path, &[]).json();
    assert_eq!(answer["method"], "cyclic");
    assert_eq!(answer["nodes"], built.nodes.len());
    assert_eq!(answer["blocks"], built.blocks.len());
    assert_eq!(answer["node_level"], 2);
    let root = root_page(&built, Tree::Nodes).to_string();
    assert_eq!(answer["node_root"]["offset"], root);
    let text = run(&["info"], &path, &[]);
    assert_eq!(text.status, 0);
    assert!(text.says(&format!("nodes {} nodes, level 2", built.nodes.len())));
}

#[test]
fn nodes_lists_every_node() {
    let built = sound();
    let path = file("nodes.pst", &built.image);
    let answer = run(&["nodes", "--json"], &path, &[]).json();
    let listed = answer["nodes"].as_array().unwrap();
    assert_eq!(listed.len(), built.nodes.len());
    for (entry, node) in listed.iter().zip(&built.nodes) {
        let block = |number: u64| (number != 0).then(|| number.to_string());
        assert_eq!(entry["node"], node.node);
        assert_eq!(entry["data"].as_str(), block(node.data).as_deref());
        assert_eq!(entry["subnode"].as_str(), block(node.subnode).as_deref());
        assert_eq!(entry["parent"], node.parent);
    }
    let text = run(&["nodes"], &path, &[]);
    assert_eq!(text.text.lines().count(), built.nodes.len() + 1);
}

#[test]
fn data_block_1_is_listed_as_none() {
    let built = data_one(Edition::Bits64);
    assert_eq!(built.nodes[1].data, 1);
    let path = file("data_one.pst", &built.image);
    let answer = run(&["nodes", "--json"], &path, &[]).json();
    let data = |at: usize| answer["nodes"][at]["data"].as_str();
    assert_eq!((data(0), data(1), data(2)), (None, None, Some("22")));
    let checked = run(&["check"], &path, &[]);
    assert_eq!(checked.status, 0, "{}", checked.text);
}

#[test]
fn blocks_lists_every_block() {
    let built = sound();
    let path = file("blocks.pst", &built.image);
    let answer = run(&["blocks", "--json"], &path, &[]).json();
    let listed = answer["blocks"].as_array().unwrap();
    let mut placed: Vec<_> = built.blocks.iter().collect();
    placed.sort_by_key(|block| block.number);
    assert_eq!(listed.len(), placed.len());
    for (entry, block) in listed.iter().zip(placed) {
        let kind = if block.number & 2 == 0 {
            "data"
        } else {
            "internal"
        };
        assert_eq!(entry["block"], block.number.to_string());
        assert_eq!(entry["kind"], kind);
        assert_eq!(entry["offset"], block.offset.to_string());
        assert_eq!(entry["size"], block.size);
        assert_eq!(entry["references"], block.references);
    }
    let text = run(&["blocks"], &path, &[]);
    assert_eq!(text.text.lines().count(), built.blocks.len() + 1);
}

#[test]
fn a_list_that_is_refused_ends_with_the_refusal() {
    let text = run(&["nodes"], &sample(), &[]);
    assert_eq!(text.status, 1);
    assert!(text.text.contains("0x122"));
    assert!(text.errors.contains("refusal 7"));
}

#[test]
fn a_table_has_a_head_only_where_it_begins() {
    for command in ["nodes", "blocks"] {
        let refused = run(&[command], &file("headless.pst", b"none"), &[]);
        assert_eq!((refused.status, refused.text.as_str()), (1, ""));
        let empty = build(1, &Plan::default()).image;
        let empty = run(&[command], &file("entryless.pst", &empty), &[]);
        assert_eq!((empty.status, empty.text.lines().count()), (0, 1));
    }
}
