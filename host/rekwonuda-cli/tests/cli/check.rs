//! `check` of one file.

use crate::images::sound;
use crate::runs::{emulated, file, office, run, run_in, Run};
use crate::spoilt::{
    changed, ending, flipped, sealed, with_block, with_bytes, with_data, with_tree,
};
use model::build::bit_0::ticket;
use model::build::seal::seal_page;
use model::build::{build, Built, PlacedPage, Plan};
use model::page::Tree;
use model::Edition;
use serde_json::Value;
use std::fs::{self, File};
use std::path::Path;

const LOOKED_AT: &str = "header, node tree, block tree, blocks, node data";

pub fn root_page(built: &Built, tree: Tree) -> usize {
    let pages = built.pages.iter().filter(|page| page.tree == tree);
    let root = pages.max_by_key(|page| page.level);
    root.expect("there is a root").offset
}

#[test]
fn a_sound_file_is_accepted() {
    let built = sound();
    let path = file("sound.pst", &built.image);
    let run = run(&["check"], &path, &[]);
    assert_eq!(run.status, 0, "{}{}", run.text, run.errors);
    assert_eq!(run.errors, "");
    let (nodes, blocks) = (built.nodes.len(), built.blocks.len());
    assert!(run.says("header accepted method cyclic"));
    assert!(run.says(&format!("node tree accepted {nodes} nodes, level 2")));
    assert!(run.says(&format!("block tree accepted {blocks} blocks, level")));
    assert!(run.says(&format!("blocks accepted {blocks} blocks,")));
    assert!(run.says(&format!("node data accepted {nodes} nodes,")));
    let last = format!("accepted: {LOOKED_AT}; not looked at: subnodes, heaps");
    assert_eq!(run.text.lines().last(), Some(last.as_str()));
}

#[test]
fn a_sound_file_is_accepted_in_json() {
    let built = sound();
    let path = file("sound_json.pst", &built.image);
    let run = run(&["--json", "check"], &path, &[]);
    assert_eq!(run.status, 0);
    let answer = run.json();
    assert_eq!(answer["outcome"], "accepted");
    assert_eq!(answer["size"], built.image.len().to_string());
    let stages = answer["stages"].as_array().unwrap();
    let names: Vec<_> = stages.iter().map(|stage| &stage["stage"]).collect();
    assert_eq!(
        names,
        ["header", "node tree", "block tree", "blocks", "node data"]
    );
    let bytes: u64 = built.blocks.iter().map(|block| u64::from(block.size)).sum();
    assert_eq!(answer["stages"][3]["bytes"], bytes);
    let bytes: usize = built.nodes.iter().map(|node| built.data(node).len()).sum();
    assert_eq!(answer["stages"][4]["bytes"], bytes);
    assert_eq!(answer["refusals"].as_array().unwrap().len(), 0);
}

/// Checks a file both ways: the refusal that JSON names, and words that the text says.
pub fn refused(
    name: &str,
    bytes: &[u8],
    status: i32,
    refusal: u64,
    place: u64,
    words: &[&str],
) -> Run {
    let path = file(name, bytes);
    let answer = run(&["check", "--json"], &path, &[]);
    assert_eq!(answer.status, status, "{name}");
    let answer = answer.json();
    let told = answer["refusals"].as_array().unwrap().last().unwrap();
    assert_eq!(told["number"], refusal, "{name}: {answer}");
    assert_eq!(told["place"], place.to_string(), "{name}: {answer}");
    let run = run(&["check"], &path, &[]);
    assert_eq!(run.status, status, "{name}");
    assert_eq!(run.errors, "", "{name}");
    let number = format!("(refusal {refusal})");
    for words in words.iter().chain(&[number.as_str()]) {
        assert!(
            run.says(words),
            "{name} does not say {words:?}:\n{}",
            run.text
        );
    }
    run
}

#[test]
fn bit_0_of_a_block_number_tells_no_blocks_apart() {
    let mut built = ticket(Edition::Bits64);
    let block = &built.blocks[0];
    let place = block.offset as u64;
    built.image[block.offset] ^= 1;
    let words = [
        "data block 0x1518, of",
        "used by the data of nodes 0x8022, 0x8042",
    ];
    refused("bit_0.pst", &built.image, 1, 15, place, &words);
    let path = file("bit_0_sound.pst", &ticket(Edition::Bits64).image);
    let all = run(&["check", "--all"], &path, &[]);
    assert!(all.says("block tree accepted 1 block,"), "{}", all.text);
    assert!(all.says("blocks accepted 1 block,"), "{}", all.text);
    assert!(all.says("block 0x151d, the data of node 0x8062"));
    assert!(!all.says("the data of node 0x8022"), "{}", all.text);
}

#[test]
fn a_file_of_another_kind_is_told_apart() {
    let words = [
        "whole file: 0 bytes",
        "empty or broke off",
        "under 564 bytes",
    ];
    refused("empty.pst", b"", 1, 1, 0, &words);
    let words = ["first bytes are 20 42 44 4e", "This is not a .pst file"];
    refused("other.pst", &flipped(0), 1, 2, 0, &words);
    let words = ["the bytes there are 53 4f", "offline store"];
    refused("store.pst", &sealed(9, b'O'), 1, 2, 8, &words);
}

#[test]
fn another_edition_is_not_covered_and_may_be_damage() {
    let words = [
        "36, the edition with pages of 4,096 bytes",
        "The version is none of 14, 15 and 23 (refusal 3)",
        "header not covered",
        "What is not covered",
    ];
    let run = refused("other_edition.pst", &sealed(10, 36), 4, 3, 10, &words);
    assert!(!run.says("damage"), "{}", run.text);
    assert!(run
        .text
        .lines()
        .last()
        .unwrap()
        .starts_with("not covered: header not covered;"));
    let mut image = sound().image;
    image[10] = 36;
    let words = ["This may be damage", "fresh copy"];
    refused("version_36.pst", &image, 4, 3, 10, &words);
    let words = ["21, which no edition known here has"];
    refused("unknown.pst", &sealed(10, 21), 4, 3, 10, &words);
    let mut image = sound().image;
    image[10] = 21;
    refused(
        "neither.pst",
        &image,
        1,
        3,
        10,
        &["header refused", "is damaged"],
    );
}

#[test]
fn a_fault_in_the_header_stops_the_check_there() {
    let words = ["bytes 8 to 478", "scanpst.exe"];
    refused("flipped.pst", &flipped(100), 1, 4, 4, &words);
    let words = ["bytes 8 to 523", "fresh copy"];
    refused("behind.pst", &flipped(500), 1, 4, 524, &words);
    let words = ["should be 80, and is 00"];
    refused("sentinel.pst", &sealed(512, 0), 1, 5, 512, &words);
    let words = ["00, 01 or 02, and is 03", "header refused"];
    let run = refused("method.pst", &sealed(513, 3), 1, 5, 513, &words);
    assert!(!run.says("node tree refused"));
    let left = "damaged: header refused; not looked at: node tree, block tree, blocks, node data, subnodes, heaps";
    assert_eq!(run.text.lines().last(), Some(left));
}

#[test]
fn a_fault_in_a_tree_names_the_tree() {
    let built = sound();
    let root = root_page(&built, Tree::Nodes);
    let words = ["node tree refused", "the root page of the node tree"];
    refused("root.pst", &flipped(root), 1, 9, root as u64, &words);
    let words = ["not a page of this tree", "scanpst.exe"];
    refused("kind.pst", &flipped(root + 496), 1, 7, root as u64, &words);
    let is_leaf = |page: &&PlacedPage| page.tree == Tree::Blocks && page.level == 0;
    let leaf = built.pages.iter().find(is_leaf).unwrap().offset;
    let words = [
        "node tree accepted",
        "block tree refused",
        "a page of the block tree",
    ];
    refused("leaf.pst", &flipped(leaf), 1, 9, leaf as u64, &words);
}

#[test]
fn a_page_behind_the_end_says_where_the_file_ends() {
    let built = sound();
    let last = built.pages.iter().map(|page| page.offset).max().unwrap();
    let image = ending(built.image[..last + 511].to_vec(), last as u64 + 511);
    let words = ["but the file ends at", "and 512 bytes are needed there"];
    let run = refused("page_behind.pst", &image, 1, 6, last as u64, &words);
    assert!(run.says("The header and the tree do not go together"));
    assert!(!run.says("hang"), "{}", run.text);
}

#[test]
fn a_fault_in_a_block_names_the_block_and_the_nodes_that_use_it() {
    let built = sound();
    let node = with_block(&built);
    let block = built.block(node.data).unwrap();
    let named = format!("block {:#x}, of", block.number);
    let user = format!("used by the data of node {:#x}", node.node);
    let words = ["blocks refused", &named, &user, "cannot be relied on"];
    refused(
        "block.pst",
        &changed(&built, block.offset),
        1,
        15,
        block.offset as u64,
        &words,
    );

    let node = with_tree(&built);
    let user = format!("used by the data of node {:#x}", node.node);
    for number in [node.data, built.parts(node)[0]] {
        let block = built.block(number).unwrap();
        let image = changed(&built, block.offset);
        let words = ["blocks refused", &user];
        refused("child.pst", &image, 1, 15, block.offset as u64, &words);
    }
}

#[test]
fn a_block_that_no_node_uses_is_told_as_such() {
    let built = sound();
    let used = |number: u64| {
        let mut nodes = built.nodes.iter();
        nodes.any(|node| node.data == number || built.parts(node).contains(&number))
    };
    let spare = built
        .blocks
        .iter()
        .find(|block| !used(block.number))
        .unwrap();
    let image = changed(&built, spare.offset);
    let words = ["used by the data of no listed node; it may belong to a subnode"];
    refused("spare.pst", &image, 1, 15, spare.offset as u64, &words);
}

#[test]
fn a_node_whose_data_does_not_exist_is_found() {
    let built = sound();
    let node = with_block(&built);
    let named = format!("the data of node {:#x}", node.node);
    let words = [
        "blocks accepted",
        "node data refused",
        "0xabcdef4, the data of",
        &named,
    ];
    let image = with_data(&built, node, 0xABC_DEF4);
    let run = refused("unlisted.pst", &image, 1, 12, 0, &words);
    let last = run.text.lines().last().unwrap();
    assert!(
        last.contains("node data refused; not looked at: subnodes, heaps"),
        "{last}"
    );

    let node = with_tree(&built);
    let root = built.block(node.data).unwrap();
    let mut bytes = root.data.clone();
    bytes[8..16].copy_from_slice(&0x00FF_EE00_u64.to_le_bytes());
    let named = format!("lock 0xffee00, a part of the data of node {:#x}", node.node);
    let words = ["blocks accepted", "node data refused", &named];
    refused(
        "childless.pst",
        &with_bytes(&built, root, &bytes),
        1,
        12,
        0,
        &words,
    );
}

#[test]
fn a_data_tree_of_a_wrong_shape_is_damage_and_one_of_two_levels_is_not_covered() {
    let built = sound();
    let node = with_tree(&built);
    let root = built.block(node.data).unwrap();
    let named = format!("which lists the data of node {:#x}", node.node);
    let place = root.offset as u64;
    let image = with_bytes(&built, root, &[1, 3]);
    refused(
        "level3.pst",
        &image,
        1,
        16,
        place,
        &["node data refused", &named],
    );
    let image = with_bytes(&built, root, &[1, 2]);
    let words = ["node data not covered 1 of", "in two levels", &named];
    refused("level2.pst", &image, 4, 16, place, &words);
}

#[test]
fn damage_behind_a_node_that_is_not_covered_is_found() {
    let built = sound();
    let tree = with_tree(&built);
    let behind = built.nodes.iter().filter(|node| node.node > tree.node);
    let other = behind.clone().find(|node| node.data != 0).unwrap();
    let mut both = with_bytes(&built, built.block(tree.data).unwrap(), &[1, 2]);
    let spoilt = with_data(&built, other, 0xABC_DEF4);
    for page in built.pages.iter().filter(|page| page.tree == Tree::Nodes) {
        let place = page.offset..page.offset + 512;
        both[place.clone()].copy_from_slice(&spoilt[place]);
    }
    let words = [
        "node data refused",
        &format!("the data of node {:#x}", other.node),
    ];
    refused("both.pst", &both, 1, 12, 0, &words);
}

#[test]
fn a_file_that_is_too_long_is_told_by_its_length() {
    let path = Path::new(env!("CARGO_TARGET_TMPDIR")).join("long.pst");
    File::create(&path).unwrap().set_len((1 << 30) + 5).unwrap();
    // So little memory would not hold the file.
    let script = format!("ulimit -v 500000; ./rekwonuda check {}", path.display());
    let text = run_in(Path::new("."), &script);
    let answer = run(&["info", "--json"], &path, &[]);
    let standard = format!("./rekwonuda check - < {}", path.display());
    let standard = run_in(Path::new("."), &standard);
    fs::remove_file(&path).unwrap();
    for run in [&text, &standard] {
        assert_eq!(run.status, 4, "{}{}", run.text, run.errors);
        assert!(run.says("whole file: 1,073,741,829 bytes"), "{}", run.text);
        assert!(
            run.says("over 1,073,741,824 bytes (1 GiB) long"),
            "{}",
            run.text
        );
    }
    assert_eq!(
        (answer.status, answer.json()["size"].clone()),
        (4, "1073741829".into())
    );
}

#[test]
fn a_file_is_held_in_memory_once() {
    if emulated() {
        return;
    }
    let path = Path::new(env!("CARGO_TARGET_TMPDIR")).join("once.pst");
    File::create(&path).unwrap().set_len(300 << 20).unwrap();
    let named = path.display();
    for script in [
        format!("./rekwonuda check {named}"),
        format!("cat {named} | ./rekwonuda check -"),
    ] {
        let script = format!("ulimit -v {}; {script}", 420 << 10);
        let run = run_in(Path::new("."), &script);
        assert_eq!(run.status, 1, "{}", run.errors);
        assert!(run.says("This is not a .pst file"), "{}", run.text);
    }
    fs::remove_file(&path).unwrap();
}

/// Every refusal that `--all` lists of a stage: its number, and the block or node.
fn listed(answer: &Value, stage: &str, what: &str) -> Vec<(u64, u64)> {
    let refusals = answer["refusals"].as_array().unwrap().iter();
    let of_stage = refusals.filter(|refusal| refusal["stage"] == stage);
    let digits = |value: &Value| value.as_str()?.parse().ok();
    let number = |value: &Value| value.as_u64().or_else(|| digits(value));
    of_stage
        .map(|refusal| {
            (
                refusal["number"].as_u64().unwrap(),
                number(&refusal[what]).unwrap(),
            )
        })
        .collect()
}

#[test]
fn all_lists_every_block_and_node_that_is_refused() {
    let built = sound();
    let mut image = with_data(&built, with_block(&built), 0xABC_DEF4);
    let tree = with_tree(&built);
    let mut spoilt: Vec<u64> = built.parts(tree);
    spoilt.dedup();
    for number in &spoilt {
        image[built.block(*number).unwrap().offset] ^= 1;
    }
    let path = file("all.pst", &image);
    let answer = run(&["check", "--all", "--json"], &path, &[]).json();
    let mut blocks: Vec<_> = spoilt.iter().map(|number| (15, *number)).collect();
    blocks.sort_unstable();
    assert_eq!(listed(&answer, "blocks", "block"), blocks);
    let mut nodes = vec![(12, with_block(&built).node.into()), (15, tree.node.into())];
    nodes.sort_unstable_by_key(|(_, node): &(u64, u64)| *node);
    assert_eq!(listed(&answer, "node data", "node"), nodes);

    let text = run(&["check", "--all"], &path, &[]);
    assert_eq!(text.status, 1);
    let counts = format!(
        "blocks refused ({} of {} blocks); node data refused (2 of {} nodes); not looked at: subnodes, heaps",
        blocks.len(),
        built.blocks.len(),
        built.nodes.len()
    );
    let last = text.text.lines().last().unwrap();
    assert!(last.ends_with(&counts), "{last}\n{counts}");
    let faults = text
        .text
        .lines()
        .filter(|line| line.starts_with("  0x") || line.starts_with("  block"));
    assert_eq!(faults.count(), blocks.len() + 2);
}

#[test]
fn all_goes_on_behind_pages_that_are_refused() {
    let plan = Plan {
        bare_nodes: 10,
        block_nodes: 300,
        most_size: 40,
        node_level: 2,
        block_level: 2,
        ..Plan::default()
    };
    let built = build(11, &plan);
    for tree in [Tree::Nodes, Tree::Blocks] {
        let leaves: Vec<_> = built
            .pages
            .iter()
            .filter(|page| page.tree == tree && page.level == 0)
            .collect();
        let bad = [
            leaves[1],
            leaves[leaves.len() / 2],
            leaves[leaves.len() - 1],
        ];
        let mut image = built.image.clone();
        for page in bad {
            image[page.offset] ^= 1;
        }
        let lost: usize = bad.iter().map(|page| page.keys.len()).sum();
        let answer = run(
            &["check", "--all", "--json"],
            &file("behind_pages.pst", &image),
            &[],
        )
        .json();
        let (at, what, entries) = match tree {
            Tree::Nodes => (1, "nodes", built.nodes.len()),
            Tree::Blocks => (2, "blocks", built.blocks.len()),
        };
        assert_eq!(answer["stages"][at]["refused"], 3, "{answer}");
        assert_eq!(answer["stages"][at][what], entries - lost);
        let unread = if tree == Tree::Blocks { lost } else { 0 };
        assert_eq!(answer["stages"][4]["refused"], unread);
    }
}

/// Read anew for each of its nodes, the data of this file would take minutes.
#[test]
fn nodes_that_share_a_data_tree_share_its_read() {
    let plan = Plan {
        bare_nodes: 20_000,
        tree_nodes: 1,
        most_size: 8_176,
        most_children: 1_021,
        one_child: true,
        tidy: true,
        ..Plan::default()
    };
    let built = build(9, &plan);
    let data = with_tree(&built).data;
    let mut image = built.image.clone();
    let leaves = built.pages.iter().filter(|page| page.level == 0);
    for page in leaves.filter(|page| page.tree == Tree::Nodes) {
        for at in 0..page.keys.len() {
            let field = page.offset + 32 * at + 8;
            image[field..field + 8].copy_from_slice(&data.to_le_bytes());
        }
        seal_page(&mut image, page.offset);
    }
    let answer = run(&["check", "--json"], &file("shared.pst", &image), &[]).json();
    assert_eq!(answer["outcome"], "accepted");
    assert_eq!(answer["stages"][4]["bytes"], 20_001_u64 * 8_347_696);
}

#[test]
fn standard_input_is_checked_too() {
    let sample = office();
    let named = sample.display();
    let folder = Path::new(".");
    for script in [
        format!("./rekwonuda check - < {named}"),
        format!("cat {named} | ./rekwonuda check -"),
    ] {
        let run = run_in(folder, &script);
        assert_eq!(run.status, 0, "{}", run.errors);
        assert!(run.says(LOOKED_AT));
    }
    let answer = run_in(folder, &format!("./rekwonuda info --json - < {named}"));
    assert_eq!(answer.json()["file"], "-");
    let closed = run_in(folder, "./rekwonuda check - <&-");
    assert_ne!(closed.status, 0);
}
