//! What `--json` writes is what docs/JSON.md says: its tables, and its examples.

use crate::editions::{with_folders, DRAFTS};
use crate::images::{sample, sound};
use crate::made::{bytes, hierarchy, table, Made, NAME};
use crate::page::{self, Shapes};
use crate::runs::{command, file, folder, office, repository, run, run_in, words, Run};
use crate::spoilt::{changed, ending, office_with_keys, NODE_LEAVES};
use model::build::tables::GivenCell;
use serde_json::{json, Value};
use std::ffi::OsStr;
use std::fs;
use std::os::unix::ffi::OsStrExt;
use std::os::unix::fs::symlink;
use std::path::{Path, PathBuf};

/// Every command on the path, with all that it can ask for.
fn hold_commands(shapes: &Shapes, path: &Path, nodes: &[u64]) {
    let commands: [&[&str]; 7] = [
        &["check"],
        &["check", "--all"],
        &["info"],
        &["nodes"],
        &["blocks"],
        &["folders"],
        &["map"],
    ];
    for words in commands {
        shapes.hold_run(&run(&[words, &["--json"]].concat(), path, &[]));
    }
    let numbers: Vec<String> = nodes.iter().map(u64::to_string).collect();
    let numbers: Vec<&str> = numbers.iter().map(String::as_str).collect();
    shapes.hold_run(&run(&["find", "--json"], path, &numbers));
    for node in nodes {
        for command in ["node", "props", "table"] {
            shapes.hold_run(&run(&[command, "--json"], path, &[&node.to_string()]));
        }
    }
}

#[test]
fn answers_have_the_shape_of_the_page() {
    let shapes = Shapes::read();
    let built = sound();
    let path = file("json_sound.pst", &built.image);
    hold_commands(&shapes, &path, &built.node_numbers());
    let nodes = [0x21, 0x0020_0284, 0x0020_02A4, 0x802D, 0x808E, 0x80EE];
    hold_commands(&shapes, &office(), &nodes);
    hold_commands(&shapes, &odd_folders(), &[0x808D, 0x808E]);
    hold_commands(&shapes, &sample(), &[0x21, 0x20]);
    for (at, offset) in [0, 10, 100, built.blocks[0].offset].into_iter().enumerate() {
        let path = file(&format!("json_{at}.pst"), &changed(&built, offset));
        hold_commands(&shapes, &path, &built.node_numbers()[..3]);
    }
    let cut = &built.image[..built.image.len() - 2000];
    hold_commands(&shapes, &file("json_cut.pst", cut), &built.node_numbers());
    let hanging = [&built.image[..], &[0; 2000]].concat();
    let path = file("json_hanging.pst", &hanging);
    hold_commands(&shapes, &path, &built.node_numbers());
    for (at, end) in [0, 2_000, u64::MAX].into_iter().enumerate() {
        let path = file(&format!("json_end_{at}.pst"), &ending(hanging.clone(), end));
        hold_commands(&shapes, &path, &built.node_numbers()[..3]);
    }
    for (at, key) in [0x21, 0x20_0124].into_iter().enumerate() {
        let image = office_with_keys(NODE_LEAVES[0], 32, &[(14, key)]);
        let path = file(&format!("json_key_{at}.pst"), &image);
        hold_commands(&shapes, &path, &[0x21, 0x0020_0284]);
    }
    hold_texts(&shapes);
    hold_failures(&shapes);
    hold_names(&shapes);
    shapes.all_were_met();
}

/// A file with all that `folders` and `table` can tell of: folders that list each other or share a table,
/// cells of every kind, and a table that is damaged.
fn odd_folders() -> PathBuf {
    let mut made = Made::new();
    made.root("Root");
    made.folder(
        0x122,
        &[(0x8022, "a"), (0x8042, "b"), (0x8062, "c"), (0x8082, "d")],
        0,
    );
    let shared = made.block(&bytes(&hierarchy(&[(0x122, "up")])));
    for table in [0x802D, 0x804D] {
        made.list(table, shared);
    }
    made.node(0x806D, &bytes(&hierarchy(&[]))[1..]);
    let cells = vec![
        GivenCell::Subnode(0x3F),
        GivenCell::Number(1),
        GivenCell::Number(2),
    ];
    let odd = [
        (0x80A2, cells),
        (
            0x80C2,
            vec![
                GivenCell::Subnode(0xFFE0),
                GivenCell::Missing,
                GivenCell::Missing,
            ],
        ),
        (
            0x80E2,
            vec![GivenCell::Empty, GivenCell::Missing, GivenCell::Missing],
        ),
    ];
    made.node(
        0x808D,
        &bytes(&table(&[NAME, 0x360A_000B, 0x0E06_0040], &odd)),
    );
    file("json_folders.pst", &made.image())
}

/// A 32-bit file with 8-bit text, without a code page and with one.
fn hold_texts(shapes: &Shapes) {
    let path = with_folders("json_old.pst", &[DRAFTS]);
    hold_commands(shapes, &path, &[0x122, 0x12D]);
    for (command, rest) in [
        ("folders", &[][..]),
        ("props", &["0x122"]),
        ("table", &["0x12d"]),
    ] {
        let words = [command, "--json", "--code-page", "1252"];
        shapes.hold_run(&run(&words, &path, rest));
    }
}

fn hold_failures(shapes: &Shapes) {
    let wrong: [&[&str]; 6] = [
        &["table", "x", "1", "--csv", "--json"],
        &["--json"],
        &["find", "--json", "-", "-"],
        &["--json", "mend"],
        &["check", "--json"],
        &["check", "x", "--jobs", "+1", "--json"],
    ];
    for wrong in wrong {
        let answer = shapes.hold_run(&words(wrong));
        assert_eq!(answer["command"], Value::Null);
        assert_eq!(answer["outcome"], "error");
        let message = answer["message"].as_str().unwrap();
        assert!(message.contains("--help"), "{answer}");
    }
    for command in ["check", "info", "nodes", "blocks", "folders", "map"] {
        let answer = shapes.hold_run(&run(&[command, "--json"], Path::new("no/such.pst"), &[]));
        assert_eq!(answer["file"], "no/such.pst");
        assert_eq!(answer["status"], 2);
    }
    shapes.hold_run(&run(&["find", "--json"], Path::new("no/such.pst"), &["1"]));
    let unwritable = ["0x21", "-o", "no/such.bin"];
    shapes.hold_run(&run(&["node", "--json"], &office(), &unwritable));
}

/// A name that is no text can be recovered.
fn hold_names(shapes: &Shapes) {
    let folder = folder("json_names");
    let path = folder.join(OsStr::from_bytes(b"odd\xFF\x1b[31m.pst"));
    fs::copy(office(), &path).unwrap();
    for words in [["check", "--json"], ["info", "--json"]] {
        let answer = shapes.hold_run(&run(&words, &path, &[]));
        let name = unhex(answer["file_hex"].as_str().unwrap());
        assert_eq!(name, path.as_os_str().as_bytes());
    }
    let several = run(&["check", "--json"], &folder, &[]);
    shapes.hold_run(&several);
    assert!(several.text.contains("file_hex") && !several.text.contains('\x1b'));
    let out = folder.join(OsStr::from_bytes(b"\xFE"));
    for (words, rest) in [("node", &["0x21", "-o"][..]), ("map", &["--force", "-o"])] {
        let mut run = command(&[words, "--json"], &office(), rest);
        let answer = shapes.hold_run(&Run::of(run.arg(&out).output().unwrap()));
        let name = unhex(answer["output_hex"].as_str().unwrap());
        assert_eq!(name, out.as_os_str().as_bytes());
    }
}

fn unhex(digits: &str) -> Vec<u8> {
    let pairs = (0..digits.len()).step_by(2);
    pairs
        .map(|at| u8::from_str_radix(&digits[at..at + 2], 16).unwrap())
        .collect()
}

#[test]
fn numbers_of_64_bits_survive() {
    let built = sound();
    let mut image = built.image.clone();
    let odd = u64::MAX - 63;
    image[224..232].copy_from_slice(&odd.to_le_bytes());
    model::build::seal::seal_header(&mut image);
    let answer = run(&["check", "--json"], &file("json_wide.pst", &image), &[]).json();
    assert_eq!(answer["refusals"][0]["place"], odd.to_string());
    assert_eq!(answer["refusals"][0]["number"], 6);
}

/// Runs the examples of the page as they stand.
#[test]
fn examples_are_what_the_program_writes() {
    let page = page::text();
    let folder = folder("json_examples");
    symlink(repository("samples"), folder.join("samples")).unwrap();
    let blocks: Vec<&str> = page.split("```").skip(1).step_by(2).collect();
    assert!(blocks.len() >= 10);
    for pair in blocks.chunks(2) {
        let script = pair[0].strip_prefix("sh\n").unwrap();
        let told: Value = serde_json::from_str(pair[1].strip_prefix("json\n").unwrap()).unwrap();
        assert_eq!(run_in(&folder, script).json(), told, "{script}");
    }
}

#[test]
fn a_list_that_is_refused_is_closed_properly() {
    let answer = run(&["nodes", "--json"], &sample(), &[]);
    assert_eq!(answer.status, 1);
    let answer = answer.json();
    let wanted =
        json!({"node": 290, "type": "folder", "parent": 290, "data": "76", "subnode": null});
    assert_eq!(answer["nodes"][2], wanted);
    assert_eq!(answer["refusals"][0]["number"], 7);
    assert_eq!(answer["refusals"][0]["place"], "26624");
}
