//! The command line on every kind of damage: it says what the model finds, and always ends by itself.

use crate::runs::{file, run, Run};
use model::build::{build_small_of, Built};
use model::damage::{spoil, Damage, BLOCK, EDITION, END, HEADER, KEYS, PAGE, WHOLE};
use model::random::Random;
use model::{Edition, Refusal};
use serde_json::Value;
use std::collections::BTreeSet;
use std::path::Path;

const SEEDS: u64 = 3;

/// The numbers of all blocks, or of all nodes, in order.
fn numbers(
    next: impl Fn(u64) -> Result<Option<u64>, Refusal>,
    last: u64,
) -> Result<Vec<u64>, Refusal> {
    let mut numbers = Vec::new();
    let mut from = Some(0);
    while let Some(number) = from.map(&next).transpose()?.flatten() {
        numbers.push(number);
        from = (number < last).then(|| number + 1);
    }
    Ok(numbers)
}

fn block_numbers(image: &[u8]) -> Result<Vec<u64>, Refusal> {
    let next = |from| {
        Ok(model::next_block(image, from)?
            .found()
            .map(|block| block.block))
    };
    numbers(next, u64::MAX)
}

fn node_numbers(image: &[u8]) -> Result<Vec<u64>, Refusal> {
    let next = |from| {
        Ok(model::next_node(image, from)?
            .found()
            .map(|node| node.node.into()))
    };
    numbers(next, u32::MAX.into())
}

fn test_node(image: &[u8], node: u64) -> Result<(), Refusal> {
    match model::read_node(image, node, &mut []) {
        Err(refusal) if refusal.number != 17 => Err(refusal),
        _ => Ok(()),
    }
}

/// The first refusal in the order in which `check` goes through a file.
fn first_fault(image: &[u8]) -> Result<(), Refusal> {
    model::check_nodes(image)?;
    model::check_blocks(image)?;
    for block in block_numbers(image)? {
        model::test_block(image, block)?;
    }
    for node in node_numbers(image)? {
        test_node(image, node)?;
    }
    Ok(())
}

/// Another edition is not covered; all else that the damages here lead to is damage.
fn status(image: &[u8], refusal: Refusal) -> i32 {
    let sum = || model::checksum(&image[8..479]).to_le_bytes();
    let is_edition = || [36, 0] == image[10..12];
    if refusal.number == 3 && (is_edition() || image[4..8] == sum()) {
        4
    } else {
        1
    }
}

fn agrees(run: &Run, image: &[u8], expected: Result<(), Refusal>) {
    let answer = run.json();
    let refusals = answer["refusals"].as_array().unwrap();
    match expected {
        Ok(()) => assert_eq!((run.status, refusals.len()), (0, 0)),
        Err(refusal) => {
            assert_eq!(
                (run.status, refusals.len()),
                (status(image, refusal), 1),
                "{answer}"
            );
            let told = &refusals[0];
            assert_eq!(told["number"], refusal.number);
            assert_eq!(told["place"], refusal.place.to_string());
            assert_eq!(told["more"], refusal.more.to_string());
            let is_by_key = [11, 21].contains(&refusal.number);
            assert_eq!(told["entry"].as_u64(), is_by_key.then_some(refusal.more));
            assert_eq!(told["range_from"].is_string(), is_by_key, "{answer}");
        }
    }
}

fn check_agrees(path: &Path, image: &[u8]) {
    let run = run(&["check", "--json"], path, &[]);
    agrees(&run, image, first_fault(image));
}

/// What `--all` lists: exactly the blocks and nodes that the model refuses, of those that its own
/// listing reaches; behind a page that is refused no fewer than a lookup finds.
fn all_agrees(path: &Path, image: &[u8], built: &Built) {
    let answer = run(&["check", "--json", "--all"], path, &[]).json();
    if model::header(image).is_err() {
        return;
    }
    let listed = |stage: &str, what: &str| -> BTreeSet<u64> {
        let refusals = answer["refusals"].as_array().unwrap().iter();
        let of_stage = refusals.filter(|refusal| refusal["stage"] == stage);
        of_stage.map(|refusal| number(&refusal[what])).collect()
    };
    let bad = |node: &u64| test_node(image, *node).is_err();
    let refused = listed("node data", "node");
    if let Ok(nodes) = node_numbers(image) {
        assert_eq!(refused, nodes.into_iter().filter(bad).collect());
    } else {
        let found = |node: &u64| {
            let next = model::next_node(image, *node).ok();
            let next = next.and_then(model::Lookup::found);
            next.is_some_and(|next| u64::from(next.node) == *node)
        };
        let known = built.node_numbers().into_iter().filter(found);
        let missed: Vec<u64> = known
            .filter(bad)
            .filter(|node| !refused.contains(node))
            .collect();
        assert!(missed.is_empty(), "{missed:?}: {answer}");
    }
    if let Ok(blocks) = block_numbers(image) {
        let bad = |block: &u64| model::test_block(image, *block).is_err();
        assert_eq!(
            listed("blocks", "block"),
            blocks.into_iter().filter(bad).collect()
        );
    }
}

fn number(value: &Value) -> u64 {
    let digits = || value.as_str()?.parse().ok();
    value.as_u64().or_else(digits).expect("a number")
}

fn node_agrees(path: &Path, image: &[u8], node: u32) {
    let mut out = vec![0; image.len()];
    let expected = model::read_node(image, node.into(), &mut out);
    let run = run(&["node", "--json"], path, &[&node.to_string()]);
    match expected {
        Ok(None) => assert_eq!((run.status, &run.json()["outcome"]), (3, &"absent".into())),
        Ok(Some(length)) => {
            assert_eq!(run.json()["length"], length);
            agrees(&run, image, Ok(()));
        }
        Err(refusal) if refusal.number == 17 => {}
        Err(refusal) => agrees(&run, image, Err(refusal)),
    }
}

/// The outcome of one number by the model: found, absent, or refused with that number and place.
fn lookup_agrees(told: &Value, expected: Result<model::Lookup<model::Node>, Refusal>) {
    match expected {
        Ok(model::Lookup::Found { pages, entry }) => {
            assert_eq!(told["outcome"], "found", "{told}");
            assert_eq!(
                (number(&told["node"]), number(&told["pages"])),
                (entry.node.into(), pages)
            );
            assert_eq!(number(&told["parent"]), u64::from(entry.parent));
        }
        Ok(model::Lookup::Absent { pages }) => {
            assert_eq!(
                (&told["outcome"], number(&told["pages"])),
                (&"absent".into(), pages)
            );
        }
        Err(refusal) => {
            assert_eq!(told["outcome"], "refused", "{told}");
            let told = ["number", "place", "more"].map(|name| number(&told[name]));
            assert_eq!(told, [refusal.number, refusal.place, refusal.more]);
        }
    }
}

fn find_agrees(path: &Path, image: &[u8], nodes: &[u64]) {
    let asked: Vec<u32> = nodes.iter().map(|node| *node as u32).collect();
    let words: Vec<String> = asked.iter().map(u32::to_string).collect();
    let words: Vec<&str> = words.iter().map(String::as_str).collect();
    let run = run(&["find", "--json"], path, &words);
    let answer = run.json();
    let told = answer["nodes"].as_array().unwrap();
    assert_eq!(told.len(), asked.len());
    let mut expected_status = 0;
    for (told, node) in told.iter().zip(asked) {
        let expected = model::find_node(image, node.into());
        expected_status = match expected {
            Ok(model::Lookup::Found { .. }) => expected_status,
            Ok(model::Lookup::Absent { .. }) => 1,
            Err(refusal) => status(image, refusal),
        };
        lookup_agrees(told, expected);
    }
    assert_eq!(run.status, expected_status, "{answer}");
}

fn goes_through(name: &str, kinds: &[Damage]) {
    for (seed, edition) in (0..SEEDS).flat_map(|seed| Edition::BOTH.map(|of| (seed, of))) {
        let built = build_small_of(edition, seed, false);
        for (at, kind) in kinds.iter().enumerate() {
            for sealed in [false, true] {
                let mut random = Random::new(seed + at as u64);
                let spoilt = spoil(&built, *kind, sealed, &mut random);
                let path = file(&format!("{name}.pst"), &spoilt.image);
                check_agrees(&path, &spoilt.image);
                all_agrees(&path, &spoilt.image, &built);
                let nodes = [built.node_numbers(), spoilt.nodes.clone(), vec![0]].concat();
                find_agrees(&path, &spoilt.image, &nodes);
                for node in spoilt.nodes.iter().take(2) {
                    node_agrees(&path, &spoilt.image, *node as u32);
                }
            }
        }
    }
}

#[test]
fn headers() {
    goes_through("damaged_header", HEADER);
}

#[test]
fn pages() {
    goes_through("damaged_page", PAGE);
}

#[test]
fn keys() {
    goes_through("damaged_key", KEYS);
}

#[test]
fn blocks() {
    goes_through("damaged_block", BLOCK);
}

#[test]
fn whole_files() {
    goes_through("damaged_whole", WHOLE);
}

#[test]
fn editions() {
    goes_through("damaged_edition", EDITION);
}

#[test]
fn ends() {
    goes_through("damaged_end", END);
}
