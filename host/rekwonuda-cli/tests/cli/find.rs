//! `find`: many nodes at once, each with an answer of its own.

use crate::images::{sample, sound};
use crate::runs::{file, folder, office, run, run_in, Folder, Run};
use crate::spoilt::{changed, sealed};
use model::build::{build, Built, PlacedPage, Plan};
use model::page::Tree;
use serde_json::{json, Value};
use std::fs::{self, File};
use std::path::Path;

const HEAD: &str =
    "      node  type                            parent                data             subnode  pages\n";

/// Runs `find` both ways, which must end alike.
fn find(path: &Path, numbers: &[&str]) -> (Run, Value) {
    let text = run(&["find"], path, numbers);
    let answer = run(&["find", "--json"], path, numbers);
    assert_eq!((answer.status, answer.errors.as_str()), (text.status, ""));
    assert_eq!(answer.json()["status"], text.status);
    (text, answer.json())
}

fn counts(answer: &Value) -> [u64; 3] {
    ["found", "absent", "refused"].map(|count| answer[count].as_u64().unwrap())
}

/// A tree of level 2 with 6,000 nodes.
fn many() -> Built {
    let plan = Plan {
        bare_nodes: 6_000,
        tidy: true,
        ..Plan::default()
    };
    build(5, &plan)
}

/// A leaf in the midst of the node tree.
fn leaf(built: &Built) -> &PlacedPage {
    let is_leaf = |page: &&PlacedPage| page.tree == Tree::Nodes && page.level == 0;
    let leaves: Vec<_> = built.pages.iter().filter(is_leaf).collect();
    leaves[leaves.len() / 2]
}

#[test]
fn nodes_that_are_there_are_told_as_in_the_list_of_all() {
    let built = sound();
    let path = file("find.pst", &built.image);
    let numbers: Vec<String> = built.node_numbers().iter().map(u64::to_string).collect();
    let numbers: Vec<&str> = numbers.iter().map(String::as_str).collect();
    let (text, answer) = find(&path, &numbers);
    assert_eq!((text.status, text.errors.as_str()), (0, ""));
    assert_eq!(answer["outcome"], "done");
    assert_eq!(counts(&answer), [numbers.len() as u64, 0, 0]);
    let listed = run(&["nodes"], &path, &[]).text;
    assert_eq!(text.text.lines().count(), listed.lines().count());
    for (found, listed) in text.text.lines().zip(listed.lines()) {
        assert!(found.starts_with(listed), "{found}");
    }
    let listed = run(&["nodes", "--json"], &path, &[]).json();
    let listed = listed["nodes"].as_array().unwrap();
    for (found, listed) in answer["nodes"].as_array().unwrap().iter().zip(listed) {
        let mut wanted = listed.clone();
        wanted["outcome"] = "found".into();
        wanted["pages"] = 3.into();
        assert_eq!(*found, wanted);
    }
}

#[test]
fn a_line_for_each_number_in_the_order_asked() {
    let (text, answer) = find(&office(), &["0x8082", "0x20", "33", "0x8082", "32"]);
    let folder = "    0x8082  folder                          0x8022                0x18                   -      2\n";
    let store = "      0x21  message store                        -                 0x4                   -      2\n";
    let absent = "      0x20  absent; 1 page read\n";
    assert_eq!(
        text.text,
        [HEAD, folder, absent, store, folder, absent].concat()
    );
    assert_eq!(
        text.errors,
        "rekwonuda: 5 nodes: 3 found, 2 absent, 0 refused\n"
    );
    assert_eq!((text.status, &answer["outcome"]), (1, &"incomplete".into()));
    let nodes: Vec<&Value> = answer["nodes"].as_array().unwrap().iter().collect();
    let asked: Vec<&Value> = nodes.iter().map(|node| &node["node"]).collect();
    assert_eq!(asked, [0x8082, 32, 33, 0x8082, 32]);
    assert_eq!(nodes[0], nodes[3]);
    assert_eq!(
        *nodes[1],
        json!({"node": 32, "outcome": "absent", "pages": 1})
    );
    assert_eq!(counts(&answer), [3, 2, 0]);
    assert_eq!(answer["refusals"], json!([]));
}

#[test]
fn damage_on_the_way_to_one_node_says_nothing_of_the_others() {
    let built = many();
    let leaf = leaf(&built);
    let path = file("find_leaf.pst", &changed(&built, leaf.offset + 9));
    let (bad, good) = (leaf.keys[0].to_string(), built.nodes[0].node.to_string());
    let (text, answer) = find(&path, &[&good, &bad, "0", &bad, &good]);
    assert_eq!((text.status, &answer["outcome"]), (1, &"damaged".into()));
    let lines: Vec<&str> = text.text.lines().collect();
    assert_eq!((lines.len(), lines[1], lines[2]), (6, lines[5], lines[4]));
    let place = format!("refused; {:#x} (", leaf.offset);
    assert!(lines[2].contains(&place), "{}", lines[2]);
    assert!(lines[2].ends_with("those that were written (refusal 9)"));
    assert!(lines[3].ends_with("absent; 1 page read"), "{}", lines[3]);
    assert!(text.errors.contains("What to do:"), "{}", text.errors);
    assert!(text.says("5 nodes: 2 found, 1 absent, 2 refused"));
    let wanted = json!({
        "node": leaf.keys[0], "outcome": "refused",
        "number": 9, "place": leaf.offset.to_string(), "more": "0",
    });
    assert_eq!(
        (&answer["nodes"][1], &answer["nodes"][3]),
        (&wanted, &wanted)
    );
    let refusals = answer["refusals"].as_array().unwrap();
    assert_eq!((refusals.len(), &refusals[0]["number"]), (1, &9.into()));
    assert_eq!(counts(&answer), [2, 1, 2]);
}

#[test]
fn each_refusal_that_is_met_is_told_once() {
    let built = many();
    let leaf = leaf(&built);
    let mut image = changed(&built, leaf.offset + 9);
    let last = *built.node_numbers().last().unwrap();
    let is_last = |page: &&PlacedPage| page.level == 0 && page.keys.contains(&last);
    let other = built.pages.iter().find(is_last).unwrap().offset;
    image[other + 490] ^= 1;
    let path = file("find_two.pst", &image);
    let numbers = [last, leaf.keys[1], leaf.keys[0], last].map(|number| number.to_string());
    let (text, answer) = find(&path, &numbers.each_ref().map(String::as_str));
    assert_eq!(text.status, 1);
    let told = answer["refusals"].as_array().unwrap();
    let places: Vec<&Value> = told.iter().map(|refusal| &refusal["place"]).collect();
    assert_eq!(places, [&other.to_string(), &leaf.offset.to_string()]);
    assert_eq!(text.text.matches("(refusal 9)").count(), 4);
    assert_eq!(text.errors.matches("What is wrong:").count(), 1);
}

#[test]
fn a_refused_header_stands_in_each_line() {
    let path = file("find_header.pst", &changed(&sound(), 100));
    let (text, answer) = find(&path, &["0x21", "1", "0x21"]);
    assert_eq!((text.status, text.text.lines().count()), (1, 4));
    assert_eq!(text.text.matches("(refusal 4)").count(), 3);
    assert_eq!(counts(&answer), [0, 0, 3]);
    assert_eq!(answer["refusals"].as_array().unwrap().len(), 1);
}

#[test]
fn what_is_not_covered_has_status_4_as_in_every_command() {
    let other = file("find_other.pst", &sealed(10, 36));
    let long = file("find_long.pst", b"");
    File::create(&long).unwrap().set_len((1 << 30) + 1).unwrap();
    for (path, number) in [(&other, 3), (&long, 1)] {
        let (text, answer) = find(path, &["0x21", "1"]);
        assert_eq!(
            (text.status, &answer["outcome"]),
            (4, &"not covered".into())
        );
        assert_eq!(run(&["node"], path, &["0x21"]).status, 4);
        assert_eq!(answer["nodes"][1]["number"], number);
        assert!(text.errors.contains("What is not covered:"));
    }
    fs::remove_file(long).unwrap();
}

/// A folder with the sample in it as `in.pst`.
fn with_sample(name: &str) -> Folder {
    let folder = folder(name);
    fs::copy(office(), folder.join("in.pst")).unwrap();
    folder
}

#[test]
fn numbers_are_read_from_standard_input() {
    let folder = with_sample("find_standard");
    let given = run_in(&folder, "./rekwonuda find in.pst 0x21 32898 0x21");
    assert_eq!((given.status, given.text.lines().count()), (0, 4));
    for script in [
        "printf '0x21 32898\\n\\n 33' | ./rekwonuda find in.pst -",
        "printf '33\\r\\n0x8082\\t0X21\\r\\n' | ./rekwonuda find in.pst -",
        "./rekwonuda find - 0x21 32898 0x21 < in.pst",
    ] {
        let run = run_in(&folder, script);
        assert_eq!((run.status, &run.text), (0, &given.text), "{script}");
    }
    let none = run_in(&folder, "./rekwonuda find in.pst - < /dev/null");
    assert_eq!((none.status, none.text.as_str()), (0, HEAD));
    let none = run_in(&folder, "./rekwonuda find --json in.pst - < /dev/null").json();
    assert_eq!((&none["nodes"], counts(&none)), (&json!([]), [0, 0, 0]));
}

#[test]
fn thousands_of_numbers_are_answered_in_order() {
    let built = many();
    let folder = folder("find_many");
    fs::write(folder.join("in.pst"), &built.image).unwrap();
    let known = built.node_numbers();
    let numbers: Vec<u64> = known
        .iter()
        .rev()
        .chain(&known)
        .chain(&known)
        .copied()
        .collect();
    let lines: String = numbers.chunks(7).map(line).collect();
    fs::write(folder.join("numbers"), lines).unwrap();
    let script = "./rekwonuda find --json in.pst - < numbers";
    let standard = run_in(&folder, script);
    assert_eq!(standard.status, 0, "{}", standard.errors);
    let answer = standard.json();
    assert_eq!(counts(&answer), [18_000, 0, 0]);
    let told = answer["nodes"].as_array().unwrap().iter();
    let told: Vec<u64> = told.map(|node| node["node"].as_u64().unwrap()).collect();
    assert_eq!(told, numbers);
    let text = run_in(&folder, "./rekwonuda find in.pst $(cat numbers)");
    assert_eq!((text.status, text.text.lines().count()), (0, 18_001));
    let missed = run_in(&folder, "(cat numbers; echo 0) | ./rekwonuda find in.pst -");
    assert_eq!((missed.status, missed.text.lines().count()), (1, 18_002));
    assert!(missed.says("18,001 nodes: 18,000 found, 1 absent, 0 refused"));
}

fn line(numbers: &[u64]) -> String {
    let words: Vec<String> = numbers
        .iter()
        .map(|number| format!("{number:#x}"))
        .collect();
    words.join(" ") + "\n"
}

#[test]
fn wrong_usage_of_find_has_status_2() {
    let folder = with_sample("find_wrong");
    for (words, told) in [
        ("in.pst", "<NUMBER>"),
        ("in.pst 0x21 -", "stands for all numbers"),
        ("in.pst - -", "stands for all numbers"),
        ("- - < in.pst", "standard input can be read once"),
        ("in.pst 0x21 +1", "a node number is decimal or 0x"),
        ("in.pst 0x100000000", "a node number is decimal or 0x"),
    ] {
        let text = run_in(&folder, &format!("./rekwonuda find {words}"));
        assert_eq!((text.status, text.text.as_str()), (2, ""), "{words}");
        assert!(text.errors.contains(told), "{}", text.errors);
        let answer = run_in(&folder, &format!("./rekwonuda find --json {words}"));
        assert_eq!(
            (answer.status, &answer.json()["command"]),
            (2, &Value::Null)
        );
    }
}

#[test]
fn numbers_that_cannot_be_read_have_status_2() {
    let folder = with_sample("find_unread");
    for (script, told) in [
        (
            "printf '33\\n33 x\\n' | ./rekwonuda find in.pst -",
            "standard input, line 2: 'x': a node number is decimal or 0x",
        ),
        (
            "./rekwonuda find in.pst - < in.pst",
            "standard input, line 1: '!BDN",
        ),
        (
            "./rekwonuda find in.pst - < .",
            "cannot read standard input: ",
        ),
        ("./rekwonuda find none.pst 33", "cannot read none.pst"),
    ] {
        let text = run_in(&folder, script);
        assert_eq!((text.status, text.text.as_str()), (2, ""), "{script}");
        assert!(text.errors.contains(told), "{}", text.errors);
        assert!(!text.errors.contains('\0'), "{}", text.errors);
        let answer = run_in(&folder, &script.replace("find", "find --json")).json();
        assert!(answer["message"].as_str().unwrap().contains(told));
    }
}

#[test]
fn the_sample_has_a_found_an_absent_and_a_refused_node() {
    let (text, answer) = find(&sample(), &["0x122", "0x20", "0x804f"]);
    assert_eq!((text.status, counts(&answer)), (1, [1, 1, 1]));
    assert_eq!(answer["nodes"][2]["place"], "28160");
}
