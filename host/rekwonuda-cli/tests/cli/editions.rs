//! Files of both editions: what is told of the 32-bit one, and its 8-bit text.

use crate::check::refused;
use crate::images::{sound, sound_of};
use crate::made::{bytes_of, contents, table, Made, COUNT, ROOT, UNREAD};
use crate::runs::{file, repository, run, words, Run};
use crate::spoilt::{with_bytes, with_tree};
use model::build::heaps::{given_properties, Given};
use model::build::limits::sizes;
use model::build::seal::{seal_page, set_end};
use model::build::tables::GivenCell;
use model::build::Built;
use model::page::Tree;
use model::random::Random;
use model::Edition;
use serde_json::{json, Value};
use std::path::{Path, PathBuf};

const OLD: Edition = Edition::Bits32;

/// The name of a folder as 8-bit text.
const NAME: u32 = 0x3001_001E;

/// Names of folders: of drafts in German, by code page 1252, and of a folder in Russian, by 1251.
pub const DRAFTS: &[u8] = b"Entw\xFCrfe";
const FOLDER: &[u8] = b"\xCF\xE0\xEF\xEA\xE0";

fn old() -> Built {
    sound_of(OLD)
}

/// A 32-bit image with that byte at that place of the header, which is sealed again.
fn old_with(place: usize, byte: u8) -> Vec<u8> {
    let mut image = old().image;
    image[place] = byte;
    OLD.layout().seal_header(&mut image);
    image
}

#[test]
fn info_tells_the_edition() {
    for (name, image, words, bits) in [
        (
            "info_64.pst",
            sound().image,
            "edition 64-bit (Unicode) end",
            64,
        ),
        ("info_32.pst", old().image, "edition 32-bit (ANSI) end", 32),
    ] {
        let path = file(name, &image);
        let text = run(&["info"], &path, &[]);
        assert_eq!(text.status, 0, "{}", text.errors);
        assert!(text.says(words), "{}", text.text);
        let answer = run(&["info", "--json"], &path, &[]).json();
        assert_eq!(answer["edition"], bits);
        assert_eq!(answer["end"], image.len().to_string());
    }
    let answer = run(&["info", "--json"], &file("info_none.pst", b"none"), &[]);
    assert!(answer.json()["edition"].is_null());
}

#[test]
fn a_32_bit_file_is_accepted_and_its_blocks_are_listed() {
    let built = old();
    let path = file("old.pst", &built.image);
    let told = run(&["check"], &path, &[]);
    assert_eq!(
        (told.status, told.errors.as_str()),
        (0, ""),
        "{}",
        told.text
    );
    let answer = run(&["blocks", "--json"], &path, &[]).json();
    let listed = answer["blocks"].as_array().unwrap().iter();
    let listed: Vec<_> = listed.map(|block| block["size"].clone()).collect();
    let mut placed: Vec<_> = built.blocks.iter().collect();
    placed.sort_by_key(|block| block.number);
    let placed: Vec<_> = placed.iter().map(|block| json!(block.size)).collect();
    assert_eq!(listed, placed);
}

#[test]
fn the_nodes_of_a_32_bit_file_are_found_and_read() {
    let built = old();
    let path = file("old_nodes.pst", &built.image);
    let answer = run(&["nodes", "--json"], &path, &[]).json();
    for (told, node) in answer["nodes"].as_array().unwrap().iter().zip(&built.nodes) {
        let numbers = (&told["node"], &told["parent"]);
        assert_eq!(numbers, (&json!(node.node), &json!(node.parent)));
        let number = node.node.to_string();
        let found = run(&["find", "--json"], &path, &[&number]).json();
        assert_eq!(found["nodes"][0]["data"], told["data"]);
        assert_eq!(run(&["node"], &path, &[&number]).bytes, built.data(node));
    }
}

#[test]
fn the_properties_of_a_32_bit_file_are_listed() {
    let built = old();
    let path = file("old_props.pst", &built.image);
    for (node, heap) in &built.heaps {
        let answer = run(&["props", "--json"], &path, &[&node.to_string()]).json();
        let properties = answer["properties"].as_array().unwrap().len();
        assert_eq!(properties, heap.properties.len());
    }
}

/// Both samples hold the same folders and messages.
#[test]
fn the_samples_show_the_same_mail() {
    for (command, rest) in [
        (&["folders"][..], &[][..]),
        (&["table", "--csv"], &["0x802d"]),
    ] {
        let [one, other] = ["samples/office.pst", "samples/small-office.pst"]
            .map(|sample| run(command, &repository(sample), rest));
        assert_eq!(one.text, other.text);
        assert_eq!((other.status, other.errors.as_str()), (0, ""));
    }
}

#[test]
fn the_row_index_of_a_32_bit_file_is_gone_by() {
    let sample = repository("samples/small-office.pst");
    let answer = run(&["table", "--json"], &sample, &["0x808e"]).json();
    let rows = answer["rows"].as_array().unwrap().iter();
    let indexed: Vec<_> = rows.map(|row| row["indexed_row"].as_u64()).collect();
    assert_eq!(indexed, (0..11).map(Some).collect::<Vec<_>>());
    assert_eq!(answer["refusals"], json!([]));
}

fn row(id: u32, name: &[u8]) -> (u32, Vec<GivenCell>) {
    let name = GivenCell::Bytes(name.to_vec());
    (id, vec![name, GivenCell::Number(0), GivenCell::Number(0)])
}

/// A 32-bit file with those folders under its root folder, whose name is 8-bit text too.
pub fn with_folders(file_name: &str, names: &[&[u8]]) -> PathBuf {
    let mut made = Made::of(OLD);
    let given = vec![(0x3001, 0x1E, Given::Bytes(b"Root".to_vec()))];
    let heap = given_properties(&mut Random::new(1), given);
    made.node(ROOT, &heap.block);
    let folders = (0x8022_u32..).step_by(0x20);
    let rows: Vec<_> = folders.zip(names).map(|(id, name)| row(id, name)).collect();
    let columns = [NAME, COUNT, UNREAD];
    let empty = bytes_of(OLD, &table(&columns, &[]));
    for (id, _) in &rows {
        made.node(id & !0x1F | 0x0D, &empty);
        made.node(id & !0x1F | 0x0E, &bytes_of(OLD, &contents(0)));
    }
    made.node(0x12D, &bytes_of(OLD, &table(&columns, &rows)));
    made.node(0x12E, &bytes_of(OLD, &contents(0)));
    file(file_name, &made.image())
}

fn folders(path: &Path, words: &[&str]) -> Run {
    run(&["folders"], path, words)
}

#[test]
fn folders_with_names_in_ascii_are_shown_by_them() {
    let path = with_folders("old_ascii.pst", &[b"Inbox", b"Sent \\ Items", b""]);
    let text = folders(&path, &[]);
    assert_eq!((text.status, text.errors.as_str()), (0, ""));
    assert!(text.says("0x122 0 - Root"), "{}", text.text);
    assert!(text.says("0x8022 0 0 Inbox"), "{}", text.text);
    assert!(text.says("0x8042 0 0 Sent \\\\ Items"), "{}", text.text);
    assert!(text.says("0x8062 0 0 (no name)"), "{}", text.text);
    let answer = folders(&path, &["--json"]).json();
    assert_eq!(answer["folders"][2]["name"], "Sent \\ Items");
    let told = |field: &str| {
        answer["folders"]
            .as_array()
            .unwrap()
            .iter()
            .any(|of| !of[field].is_null())
    };
    assert!(!told("name_hex") && answer["code_page"].is_null());
}

#[test]
fn bytes_of_no_known_code_page_are_not_shown_as_if_they_were_known() {
    let path = with_folders("old_bytes.pst", &[DRAFTS, b"\xC3\xBC"]);
    let text = folders(&path, &[]);
    assert_eq!(text.status, 0);
    assert!(text.says("0x8022 0 0 Entw\\xfcrfe"), "{}", text.text);
    assert!(text.says("0x8042 0 0 \\xc3\\xbc"), "{}", text.text);
    assert!(text.says("--code-page NUMBER says it"), "{}", text.errors);
    let answer = folders(&path, &["--json"]);
    assert_eq!(answer.errors, "");
    let answer = answer.json();
    assert_eq!(answer["folders"][1]["name"], "Entw\u{FFFD}rfe");
    assert_eq!(answer["folders"][1]["name_hex"], "456e7477fc726665");
    assert_eq!(answer["folders"][2]["name"], "\u{FFFD}\u{FFFD}");
}

#[test]
fn a_code_page_that_is_named_is_gone_by() {
    let path = with_folders("old_pages.pst", &[DRAFTS, FOLDER]);
    let western = folders(&path, &["--code-page", "1252"]);
    assert_eq!((western.status, western.errors.as_str()), (0, ""));
    assert!(western.says("Entw\u{FC}rfe"), "{}", western.text);
    assert!(western.says("\u{CF}\u{E0}\u{EF}\u{EA}\u{E0}"));
    let cyrillic = folders(&path, &["--code-page", "1251", "--json"]).json();
    assert_eq!(cyrillic["code_page"], 1251);
    assert_eq!(
        cyrillic["folders"][2]["name"],
        "\u{41F}\u{430}\u{43F}\u{43A}\u{430}"
    );
    assert!(cyrillic["folders"][2]["name_hex"].is_null());
    for wrong in ["437", "1255", "utf-8", ""] {
        let run = folders(&path, &["--code-page", wrong]);
        assert_eq!(run.status, 2);
        assert!(run.says("the code pages known here are 1250 to 1254, and 1257"));
    }
    let help = words(&["folders", "--help"]);
    assert!(help.says("shown as \\xNN"), "{}", help.text);
}

#[test]
fn cells_are_shown_by_the_code_page_too() {
    let path = with_folders("old_cells.pst", &[DRAFTS]);
    let cell = |words: &[&str]| run(&["table"], &path, &[&["0x12d"], words].concat());
    let unknown = cell(&[]);
    assert!(unknown.says("Entw\\xfcrfe"), "{}", unknown.text);
    assert!(unknown.errors.contains("--code-page NUMBER"));
    let known = cell(&["--code-page", "1252"]);
    assert!(known.says("Entw\u{FC}rfe"), "{}", known.text);
    assert_eq!(known.errors, "");
    let csv = cell(&["--csv"]);
    assert!(csv.text.contains(",Entw\\xfcrfe,"), "{}", csv.text);
    let csv = cell(&["--csv", "--code-page", "1252"]);
    assert!(csv.text.contains(",Entw\u{FC}rfe,"), "{}", csv.text);
    let answer = cell(&["--json", "--code-page", "1252"]).json();
    assert_eq!(answer["code_page"], 1252);
    let cells = answer["rows"][0]["cells"].as_array().unwrap();
    let name = cells
        .iter()
        .find(|cell| cell["bytes"] == "456e7477fc726665");
    assert_eq!(name.unwrap()["text"], "Entw\u{FC}rfe");
}

#[test]
fn properties_are_shown_by_the_code_page_too() {
    let mut made = Made::of(OLD);
    let given = vec![(0x37, 0x1E, Given::Bytes(b"caf\xE9 \"\n".to_vec()))];
    made.node(0x21, &given_properties(&mut Random::new(1), given).block);
    let path = file("old_subject.pst", &made.image());
    let unknown = run(&["props"], &path, &["0x21"]);
    assert!(
        unknown.says("7 bytes: \"caf\\xe9 \"\\x0a\""),
        "{}",
        unknown.text
    );
    assert!(unknown.errors.contains("--code-page NUMBER"));
    let known = run(&["props", "--code-page", "1252"], &path, &["0x21"]);
    assert!(
        known.says("7 bytes: \"caf\u{E9} \"\\x0a\""),
        "{}",
        known.text
    );
    assert_eq!(known.errors, "");
}

#[test]
fn a_fault_in_the_header_is_told_where_it_stands() {
    let words = ["should be 80, and is 00", "sentinel byte is wrong"];
    refused("old_sentinel.pst", &old_with(460, 0), 1, 5, 460, &words);
    let words = ["00, 01 or 02, and is 03", "names an encoding method"];
    refused("old_method.pst", &old_with(461, 3), 1, 5, 461, &words);
    let mut image = old().image;
    image[100] ^= 1;
    refused("old_sum.pst", &image, 1, 4, 4, &["bytes 8 to 478"]);
    let mut image = old().image;
    let length = image.len() as u64;
    set_end(&mut image, length + 3);
    let words = [", 3 too few", "0xa8 (168): the header says", "cut short"];
    refused("old_cut.pst", &image, 1, 1, 168, &words);
    set_end(&mut image, u32::MAX.into());
    let words = ["ends at 0xffffffff (4,294,967,295), and", "ask for both"];
    refused("old_long.pst", &image, 1, 1, 168, &words);
}

#[test]
fn a_file_with_the_version_of_the_other_edition_is_damaged() {
    let mut image = sound().image;
    image[10] = 14;
    refused("as_old.pst", &image, 1, 4, 4, &["bytes 8 to 478"]);
    OLD.layout().seal_header(&mut image);
    refused("as_old_sealed.pst", &image, 1, 5, 460, &["should be 80"]);
    let image = old_with(10, 23);
    refused("as_new.pst", &image, 1, 4, 524, &["bytes 8 to 523"]);
}

/// A block of 52 bytes has a room of 64 in a 32-bit file, and of 128 in a 64-bit one.
#[test]
fn rooms_and_sizes_are_those_of_the_edition() {
    let built = sizes(OLD, &[8_180, 8_181]);
    let place = built.blocks[1].offset as u64;
    let words = ["of 8,181 bytes, is listed there, but a block has 1 to 8,180 bytes"];
    refused("old_sizes.pst", &built.image, 1, 13, place, &words);
    for (edition, room) in [(OLD, 64), (Edition::Bits64, 128)] {
        let mut built = sizes(edition, &[52]);
        let (page, entry) = built.listing(built.blocks[0].number).unwrap();
        let (layout, end) = (built.layout(), built.image.len() as u64);
        layout.put_number(&mut built.image, entry + layout.width, end);
        seal_page(&mut built.image, page);
        let needed = format!("and {room} bytes are needed there");
        refused("room.pst", &built.image, 1, 13, end, &[&needed]);
    }
}

#[test]
fn a_data_tree_of_two_levels_is_not_covered() {
    let built = old();
    let node = with_tree(&built);
    let root = built.block(node.data).unwrap();
    let image = with_bytes(&built, root, &[1, 2]);
    let words = [
        "in two levels",
        "in a 32-bit file where it has more than 16,711,740",
    ];
    refused("old_levels.pst", &image, 4, 16, root.offset as u64, &words);
    let image = with_bytes(&built, root, &[1, 3]);
    refused("old_level_3.pst", &image, 1, 16, root.offset as u64, &[]);
}

#[test]
fn a_key_at_fault_is_told() {
    let built = old();
    let is_leaf = |tree, level| (tree, level) == (Tree::Nodes, 0);
    let mut pages = built.pages.iter();
    let leaf = pages.find(|page| is_leaf(page.tree, page.level) && page.keys.len() > 1);
    let leaf = leaf.expect("a leaf has two entries");
    let mut image = built.image.clone();
    let second = leaf.offset + built.layout().node_leaf.size;
    image.copy_within(leaf.offset..leaf.offset + 4, second);
    seal_page(&mut image, leaf.offset);
    let key = leaf.keys[0];
    let entry = format!("its entry 1 (counted from 0, of {})", leaf.keys.len());
    let keys = format!("has key {key:#x}, the one before it {key:#x}");
    let path = file("old_keys.pst", &image);
    let answer: Value = run(&["check", "--json"], &path, &[]).json();
    assert_eq!(answer["refusals"][0]["key"], key.to_string());
    let words = [entry.as_str(), &keys];
    refused("old_key.pst", &image, 1, 11, leaf.offset as u64, &words);
}
