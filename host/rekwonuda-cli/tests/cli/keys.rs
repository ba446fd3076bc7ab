//! Refusals by a key: what is told of a shuffled page, and what of a stale one.

use crate::runs::{file, office, run, Run};
use crate::spoilt::{office_with_keys, BLOCK_LEAVES, NODE_LEAVES, NODE_ROOT};
use model::build::seal::seal_page;
use model::build::{build, Plan};
use model::page::Tree;
use serde_json::{json, Value};
use std::path::PathBuf;

const SHUFFLED: &str =
    "An entry's key is not above the one before it, as in a page that was shuffled \
    or overwritten (refusal 11)";
const STALE: &str =
    "A key lies outside its page's range, as in a stale page: one of another place or \
    time (refusal 21)";

/// A leaf of the node tree with two entries exchanged.
fn shuffled(name: &str) -> PathBuf {
    file(
        name,
        &office_with_keys(NODE_LEAVES[0], 32, &[(3, 0x12E), (4, 0x12D)]),
    )
}

/// A leaf of the node tree whose last node belongs in the next leaf.
fn stale(name: &str) -> PathBuf {
    file(name, &office_with_keys(NODE_LEAVES[0], 32, &[(14, 0x802D)]))
}

fn says_all(run: &Run, status: i32, words: &[&str]) {
    assert_eq!(run.status, status);
    for words in words {
        let said = format!("{}{}", run.text, run.errors);
        assert!(run.says(words), "it does not say {words:?}:\n{said}");
    }
}

/// The fields of the first refusal that are about its key.
fn about_key(run: &Run) -> Value {
    let mut told = run.json()["refusals"][0].clone();
    for name in [
        "number", "outcome", "meaning", "where", "advice", "stage", "node",
    ] {
        told.as_object_mut().unwrap().remove(name);
    }
    told
}

#[test]
fn a_shuffled_page_is_told_with_both_keys() {
    let path = shuffled("keys_shuffled.pst");
    let words = [
        "node tree refused",
        SHUFFLED,
        "0xb600 (46,592): a leaf page of the node tree",
        "; its entry 4 (counted from 0, of 15) has key 0x12d, the one before it 0x12e; \
         keys from 0x21 to below 0x802d belong here",
        "put out of order, or some of them were written over",
    ];
    says_all(&run(&["check"], &path, &[]), 1, &words);
    let told = json!({
        "place": "46592", "more": "4",
        "entry": 4, "entries": 15, "level": 0,
        "key": "301", "key_stored": "301",
        "key_before": "302", "key_before_stored": "302",
        "range_from": "33", "range_to": "32813",
    });
    assert_eq!(about_key(&run(&["check", "--json"], &path, &[])), told);
}

#[test]
fn a_stale_page_is_told_with_its_range() {
    let path = stale("keys_stale.pst");
    let words = [
        "node tree refused",
        STALE,
        "; its entry 14 (counted from 0, of 15) has key 0x802d, the one before it 0x692; \
         keys from 0x21 to below 0x802d belong here",
        "a whole, sound page, but it does not go with those that lead to it",
        "may be the room of another message by now, so that it is not followed",
    ];
    says_all(&run(&["check"], &path, &[]), 1, &words);
    let told = json!({
        "place": "46592", "more": "14",
        "entry": 14, "entries": 15, "level": 0,
        "key": "32813", "key_stored": "32813",
        "key_before": "1682", "key_before_stored": "1682",
        "range_from": "33", "range_to": "32813",
    });
    assert_eq!(about_key(&run(&["check", "--json"], &path, &[])), told);
}

#[test]
fn what_is_not_there_is_not_told() {
    let image = office_with_keys(NODE_LEAVES[3], 32, &[(0, 0x20_0064)]);
    let path = file("keys_first.pst", &image);
    let words = "has key 0x200064; keys from 0x200084 on belong here What to do";
    says_all(&run(&["check"], &path, &[]), 1, &[words]);
    let told = about_key(&run(&["check", "--json"], &path, &[]));
    let nulls = ["key_before", "key_before_stored", "range_to"];
    assert!(nulls.iter().all(|name| told[name].is_null()), "{told}");

    let path = file(
        "keys_root.pst",
        &office_with_keys(NODE_ROOT, 24, &[(1, 0x21)]),
    );
    let words = [
        "the root page of the node tree",
        "; its entry 1 (counted from 0, of 4) has key 0x21, the one before it 0x21 What to do",
    ];
    says_all(&run(&["check"], &path, &[]), 1, &words);
    let told = about_key(&run(&["check", "--json"], &path, &[]));
    assert_eq!(
        (&told["range_from"], &told["level"]),
        (&json!("0"), &json!(1))
    );
}

#[test]
fn a_key_is_told_as_stored_where_it_is_compared_otherwise() {
    let path = file(
        "keys_bit_0.pst",
        &office_with_keys(BLOCK_LEAVES[0], 24, &[(5, 0x15)]),
    );
    let words = [
        SHUFFLED,
        "has key 0x14 (stored as 0x15), the one before it 0x14;",
    ];
    says_all(&run(&["check"], &path, &[]), 1, &words);
    let told = about_key(&run(&["check", "--json"], &path, &[]));
    assert_eq!(told["key"], "20");
    assert_eq!(told["key_stored"], "21");
}

#[test]
fn every_command_tells_the_same() {
    let path = stale("keys_commands.pst");
    let words = ["a leaf page of the node tree", "has key 0x802d,", STALE];
    let told = about_key(&run(&["check", "--json"], &path, &[]));
    let commands: [(&str, &[&str]); 5] = [
        ("info", &[]),
        ("nodes", &[]),
        ("node", &["0x21"]),
        ("props", &["0x21"]),
        ("check", &["--all"]),
    ];
    for (command, rest) in commands {
        says_all(&run(&[command], &path, rest), 1, &words);
        let answer = run(&[command, "--json"], &path, rest);
        assert_eq!(about_key(&answer), told, "{command}");
    }
    let other = shuffled("keys_other.pst");
    let lines = run(&["check"], &path, &[other.to_str().unwrap()]);
    says_all(&lines, 1, &words);
    says_all(
        &lines,
        1,
        &["has key 0x12d, the one before it 0x12e;", SHUFFLED],
    );
}

#[test]
fn the_way_to_the_data_of_a_node_may_lead_through_a_stale_page() {
    let path = file(
        "keys_way.pst",
        &office_with_keys(BLOCK_LEAVES[1], 24, &[(0, 0x50)]),
    );
    let words = [
        "a leaf page of the block tree (the list of where all data stands), on the way to the data \
         of node 0x200284 (message); its entry 0 (counted from 0, of 20) has key 0x50; keys from \
         0x54 to below 0xa4 belong here",
        STALE,
    ];
    says_all(&run(&["node"], &path, &["0x200284"]), 1, &words);
    says_all(&run(&["check", "--all"], &path, &[]), 1, &words);
    assert_eq!(run(&["node"], &path, &["0x21"]).status, 0);
}

/// The tree is gone through once for all of them: anew for each, it would take ten times as long.
#[test]
fn all_tells_the_range_of_every_stale_page() {
    let plan = Plan {
        bare_nodes: 60_000,
        tidy: true,
        ..Plan::default()
    };
    let mut built = build(13, &plan);
    let is_leaf = |tree: Tree, level: u8| tree == Tree::Nodes && level == 0;
    let leaves = built
        .pages
        .iter()
        .filter(|page| is_leaf(page.tree, page.level));
    let leaves: Vec<usize> = leaves.map(|page| page.offset).skip(1).collect();
    for leaf in &leaves {
        built.image[*leaf..leaf + 8].fill(0);
        seal_page(&mut built.image, *leaf);
    }
    let path = file("keys_all.pst", &built.image);
    let answer = run(&["check", "--all", "--json"], &path, &[]).json();
    let refusals = answer["refusals"].as_array().unwrap();
    assert_eq!(refusals.len(), leaves.len());
    for refusal in refusals {
        assert_eq!(
            (&refusal["number"], &refusal["key"]),
            (&json!(21), &json!("0"))
        );
        assert!(refusal["range_from"].is_string(), "{refusal}");
    }
}

#[test]
fn a_sound_file_has_no_key_at_fault() {
    let answer = run(&["check", "--all", "--json"], &office(), &[]).json();
    assert_eq!(answer["refusals"], json!([]));
}
