//! `map`: what lies where in a file, and the picture of it.

use crate::images::{sample, sound, sound_of};
use crate::made::Made;
use crate::runs::{file, folder, listed, office, repository, run, run_in, Run};
use crate::spoilt::{
    changed, ending, office_bytes, office_with_keys, sealed, with_block, with_data, BLOCK_LEAVES,
    NODE_LEAVES, NODE_ROOT,
};
use crate::terminal::sent;
use model::build::end::{move_block, move_page};
use model::build::maps::{put_map, DENSITY_LIST};
use model::build::seal::{seal_header, set_end};
use model::build::{build, Built, Plan};
use model::page::Tree;
use model::Edition;
use serde_json::Value;
use std::ffi::OsStr;
use std::fs::{self, File};
use std::os::unix::ffi::OsStrExt;
use std::path::Path;
use std::time::{Duration, Instant};

const KINDS: [&str; 10] = [
    "header",
    "maps",
    "node tree",
    "block tree",
    "stale",
    "blocks",
    "hanging",
    "reserved",
    "free",
    "unknown",
];

/// The room of block 4 of samples/office.pst, and a free room of it.
const BLOCK: usize = 0x4400;
const FREE: usize = 0x4940;

/// A stretch: its kind, its first byte and the one behind its last.
type Stretch = (String, usize, usize);

fn number(digits: &Value) -> usize {
    digits
        .as_str()
        .and_then(|digits| digits.parse().ok())
        .expect("digits")
}

/// The stretches of a file, which cover it once from its first byte to its last, and whose amounts are
/// those of the kinds.
fn stretches(path: &Path) -> Vec<Stretch> {
    let answer = run(&["map", "--json"], path, &[]).json();
    let listed = answer["stretches"].as_array().expect("a list").iter();
    let stretches: Vec<Stretch> = listed
        .map(|stretch| {
            let kind = stretch["kind"].as_str().expect("a kind").to_string();
            (kind, number(&stretch["from"]), number(&stretch["to"]))
        })
        .collect();
    let mut end = 0;
    for (kind, from, to) in &stretches {
        assert!(*from == end && from < to, "{kind} {from} {to}");
        end = *to;
    }
    assert_eq!(end as u64, fs::metadata(path).unwrap().len());
    hold_kinds(&answer, &stretches);
    stretches
}

fn hold_kinds(answer: &Value, stretches: &[Stretch]) {
    let kinds = answer["kinds"].as_array().expect("a list");
    let names: Vec<&str> = kinds
        .iter()
        .filter_map(|kind| kind["kind"].as_str())
        .collect();
    assert_eq!(names, KINDS);
    for kind in kinds {
        let of_kind = stretches.iter().filter(|(name, ..)| kind["kind"] == **name);
        let sizes: Vec<usize> = of_kind.map(|(_, from, to)| to - from).collect();
        assert_eq!(kind["count"], sizes.len());
        assert_eq!(number(&kind["bytes"]), sizes.iter().sum::<usize>());
    }
}

/// The kind of the stretch in which a byte lies.
fn kind_at(stretches: &[Stretch], at: usize) -> &str {
    let mut around = stretches
        .iter()
        .filter(|(_, from, to)| (*from..*to).contains(&at));
    &around.next().expect("all bytes are covered").0
}

fn of_kind(stretches: &[Stretch], kind: &str) -> Vec<(usize, usize)> {
    let of_kind = stretches.iter().filter(|(name, ..)| name == kind);
    of_kind.map(|(_, from, to)| (*from, *to)).collect()
}

/// The picture of a file, which is well-formed XML.
fn picture(path: &Path, status: i32) -> String {
    let run = run(&["map"], path, &[]);
    assert_eq!(run.status, status, "{}", run.errors);
    hold_xml(&run.text);
    run.text
}

/// Holds text to the rules of XML, as far as a picture uses it: elements in each other, attributes in
/// quotation marks, and four entities.
fn hold_xml(text: &str) {
    assert!(text
        .chars()
        .all(|character| character >= ' ' || character == '\n'));
    assert!(!text.contains(['\u{FFFE}', '\u{FFFF}']));
    let mut open = Vec::new();
    for part in text.split('<').skip(1) {
        let (tag, words) = part.split_once('>').expect("a tag ends");
        hold_entities(words);
        if let Some(name) = tag.strip_prefix('/') {
            assert_eq!(open.pop(), Some(name));
        } else {
            let name = tag.split([' ', '/']).next().unwrap();
            assert!(
                !name.is_empty() && tag.matches('"').count().is_multiple_of(2),
                "{tag}"
            );
            tag.split('"').skip(1).step_by(2).for_each(hold_entities);
            if !tag.ends_with('/') {
                open.push(name);
            }
        }
        assert!(!open.is_empty() || words.trim().is_empty(), "{words}");
    }
    assert!(open.is_empty() && text.starts_with("<svg ") && text.ends_with("</svg>\n"));
}

fn hold_entities(words: &str) {
    for behind in words.split('&').skip(1) {
        let known = ["amp;", "lt;", "gt;", "quot;"];
        assert!(
            known.iter().any(|entity| behind.starts_with(entity)),
            "{words}"
        );
    }
}

/// The places of a picture's rows, each with its offset: `y` of the text.
fn rows(picture: &str) -> Vec<(usize, u64)> {
    let labels = picture.lines().filter(|line| line.contains("text-anchor"));
    labels
        .map(|label| {
            let (_, words) = label.split_once(">0x").expect("an offset");
            let (digits, _) = words.split_once('<').expect("its end");
            let offset = u64::from_str_radix(digits, 16).expect("hexadecimal digits");
            (attribute(label, "y"), offset)
        })
        .collect()
}

fn attribute(element: &str, name: &str) -> usize {
    let (_, behind) = element
        .split_once(&format!(" {name}=\""))
        .expect("the attribute");
    behind.split('"').next().unwrap().parse().expect("a number")
}

/// The places of the pins of a picture that tell a refusal: the first is beside its words.
fn pins(picture: &str, refusal: u64) -> Vec<(usize, usize)> {
    let told = format!("<title>refusal {refusal}</title>");
    let pins = picture.lines().filter(|line| line.contains(&told));
    pins.map(|pin| {
        let (_, data) = pin.split_once(" d=\"M").expect("a path");
        let (place, _) = data.split_once('h').expect("its first line");
        let (x, y) = place.split_once(',').expect("two numbers");
        (x.parse().unwrap(), y.parse().unwrap())
    })
    .collect()
}

#[test]
fn stretches_cover_any_file_once() {
    for path in [office(), repository("samples/small-office.pst"), sample()] {
        picture(&path, run(&["check"], &path, &[]).status);
        stretches(&path);
    }
    for edition in Edition::BOTH {
        let image = sound_of(edition).image;
        let length = image.len() as u64;
        for (at, end) in [length, length - 1, 0x4A21, 0x4400, 0x233, 0]
            .into_iter()
            .enumerate()
        {
            let path = file("map_covered.pst", &ending(image.clone(), end));
            let stretches = stretches(&path);
            let hanging = of_kind(&stretches, "hanging");
            let wanted = (end.max(564) as usize, length as usize);
            assert_eq!(
                hanging,
                [wanted][..usize::from(at > 0)],
                "{edition:?} {end}"
            );
        }
    }
    for length in [0, 1, 563, 564, 565, 20_000] {
        let path = file("map_cut.pst", &sound().image[..length]);
        let kinds: Vec<String> = stretches(&path)
            .into_iter()
            .map(|(kind, ..)| kind)
            .collect();
        let wanted = [&["header"][..], &["unknown"]].concat();
        assert_eq!(
            kinds,
            wanted[..usize::from(length > 0) + usize::from(length > 564)]
        );
        picture(&path, 1);
    }
}

/// The pages of a tree, or the blocks, as they were placed.
fn placed_pages(built: &Built, tree: Tree) -> Vec<(usize, usize)> {
    let pages = built.pages.iter().filter(|page| page.tree == tree);
    let mut placed: Vec<_> = pages.map(|page| (page.offset, page.offset + 512)).collect();
    placed.sort_unstable();
    placed
}

fn placed_blocks(built: &Built) -> Vec<(usize, usize)> {
    let room = |size: u16| built.layout().room(u32::from(size)) as usize;
    let blocks = built.blocks.iter();
    let mut placed: Vec<_> = blocks
        .map(|block| (block.offset, block.offset + room(block.size)))
        .collect();
    placed.sort_unstable();
    placed
}

#[test]
fn every_page_and_block_has_a_stretch_of_its_own() {
    for edition in Edition::BOTH {
        let built = sound_of(edition);
        let path = file("map_sound.pst", &built.image);
        let stretches = stretches(&path);
        assert_eq!(of_kind(&stretches, "blocks"), placed_blocks(&built));
        assert_eq!(
            of_kind(&stretches, "node tree"),
            placed_pages(&built, Tree::Nodes)
        );
        assert_eq!(
            of_kind(&stretches, "block tree"),
            placed_pages(&built, Tree::Blocks)
        );
        assert_eq!(of_kind(&stretches, "header"), [(0, 564)]);
        assert_eq!(of_kind(&stretches, "reserved"), [(564, 0x4400)]);
        let gaps = [of_kind(&stretches, "free"), of_kind(&stretches, "stale")].concat();
        assert!(!gaps.is_empty());
        for kind in ["maps", "hanging", "unknown"] {
            assert!(of_kind(&stretches, kind).is_empty(), "{kind}");
        }
        for (from, to) in of_kind(&stretches, "free") {
            assert!(built.image[from..to].iter().all(|byte| *byte == 0));
        }
        for (from, to) in of_kind(&stretches, "stale") {
            assert!(built.image[from..to].iter().any(|byte| *byte != 0));
        }
    }
}

#[test]
fn the_legend_tells_what_the_lists_count() {
    let path = office();
    let picture = picture(&path, 0);
    let info = run(&["info", "--json"], &path, &[]).json();
    let blocks = run(&["blocks", "--json"], &path, &[]).json();
    let listed = blocks["blocks"].as_array().unwrap();
    assert_eq!(info["blocks"], listed.len());
    let room = |block: &Value| (block["size"].as_u64().unwrap() + 16).next_multiple_of(64);
    let room: u64 = listed.iter().map(room).sum();
    assert_eq!((listed.len(), room), (45, 26_496));
    for (name, amount) in [
        ("header", "1 stretch, 564 bytes"),
        ("maps", "none"),
        ("node tree", "5 pages, 2,560 bytes"),
        ("block tree", "4 pages, 2,048 bytes"),
        ("stale", "none"),
        ("blocks", "45 blocks, 26,496 bytes"),
        ("reserved", "1 stretch, 16,844 bytes"),
        ("free", "3 stretches, 640 bytes"),
        ("unknown", "none"),
    ] {
        assert!(picture.contains(&format!(">{name}</text>")), "{name}");
        assert!(
            picture.contains(&format!(">{amount}</text>")),
            "{name}: {amount}"
        );
        assert!(picture.contains(&format!("{name}: {amount}.")), "{name}");
    }
    assert!(picture.contains(">49,152 bytes, 64-bit (Unicode), accepted</text>"));
    assert!(picture.contains("<title>node tree: 0xbe00 (48,640) to below 0xc000 (49,152)</title>"));
    let rows = rows(&picture);
    assert_eq!((rows.len(), rows[47].1), (48, 47 * 1_024));
    assert!(pins(&picture, 15).is_empty() && !picture.contains("refusal "));
}

#[test]
fn the_kept_picture_is_the_one_that_is_drawn() {
    let run = run_in(&repository("."), "./rekwonuda map samples/office.pst");
    let kept = fs::read_to_string(repository("docs/office-map.svg")).unwrap();
    assert!(
        run.text == kept,
        "docs/office-map.svg is not what `map` draws"
    );
}

/// Holds the pin of a file's picture to the place that `check` tells.
fn marked(name: &str, image: &[u8]) {
    let path = file(name, image);
    let check = run(&["check", "--json"], &path, &[]).json();
    let refusal = check["refusals"].as_array().unwrap().last().unwrap();
    let place = number(&refusal["place"]) as u64;
    let picture = picture(&path, 1);
    let rows = rows(&picture);
    let row_bytes = rows[1].1;
    let (bottom, offset) = rows[(place / row_bytes) as usize];
    let x = 88 + (place - offset) * 896 / row_bytes;
    let pins = pins(&picture, refusal["number"].as_u64().unwrap());
    assert_eq!(pins.len(), 2, "{refusal}");
    assert_eq!(pins[1], (x as usize, bottom + 1), "{refusal}");
    let words = refusal["where"]
        .as_str()
        .unwrap()
        .split(';')
        .next()
        .unwrap();
    assert!(picture.contains(words), "{words}");
    assert!(picture.contains(", damaged</text>"));
    let answer = run(&["map", "--json"], &path, &[]).json();
    assert_eq!(answer["refusals"][0]["place"], refusal["place"]);
    assert_eq!(
        (&answer["outcome"], &answer["status"]),
        (&check["outcome"], &check["status"])
    );
}

#[test]
fn the_refusal_of_a_check_is_marked_at_its_place() {
    let flipped = |at: usize| {
        let mut image = office_bytes();
        image[at] ^= 1;
        image
    };
    marked("map_block.pst", &flipped(BLOCK + 92));
    marked("map_last_block.pst", &flipped(0xA9C0));
    marked("map_node_page.pst", &flipped(NODE_LEAVES[2] + 9));
    marked("map_node_root.pst", &flipped(NODE_ROOT));
    marked("map_block_page.pst", &flipped(BLOCK_LEAVES[1]));
    marked("map_magic.pst", &flipped(0));
    marked("map_sum.pst", &flipped(100));
    marked("map_cut_short.pst", &office_bytes()[..40_000]);
    marked(
        "map_key.pst",
        &office_with_keys(NODE_LEAVES[0], 32, &[(2, 0x61)]),
    );
    let old = sound_of(Edition::Bits32);
    marked("map_old.pst", &changed(&old, old.blocks[3].offset));
}

/// Holds a file's picture to mark nothing, and to tell those words.
fn unmarked(image: &[u8], status: i32, refusal: u64, words: &str) {
    let path = file("map_unmarked.pst", image);
    let picture = picture(&path, status);
    assert_eq!(pins(&picture, refusal), [], "{words}");
    for words in [words, "It names no place in the file."] {
        assert!(picture.contains(words), "{words}");
    }
}

#[test]
fn a_refusal_without_a_place_in_the_file_is_told_in_words() {
    let built = sound();
    let absent = with_data(&built, with_block(&built), 0x7777_7770);
    unmarked(&absent, 1, 12, "(refusal 12)");
    unmarked(b"none", 1, 1, "the whole file: 4 bytes");
    let mut behind = office_bytes();
    behind[224..232].copy_from_slice(&0xC000_u64.to_le_bytes());
    seal_header(&mut behind);
    unmarked(&behind, 1, 6, "0xc000 (49,152): the node tree");
}

/// A built image after a page or block was moved to its end, and the room that it had.
fn moved(edition: Edition, what: &str) -> (Vec<u8>, (usize, usize)) {
    let built = sound_of(edition);
    let mut image = built.image.clone();
    let tree = match what {
        "node tree" => Tree::Nodes,
        _ => Tree::Blocks,
    };
    let mut pages = built.pages.iter();
    let page = pages
        .find(|page| page.tree == tree && page.level == 0)
        .unwrap();
    let block = &built.blocks[4];
    let (room, offset) = match what {
        "blocks" => (placed_blocks(&built), move_block(&mut image, &built, block)),
        _ => (
            placed_pages(&built, tree),
            move_page(&mut image, &built, page),
        ),
    };
    let at = if what == "blocks" {
        block.offset
    } else {
        page.offset
    };
    let room = room.into_iter().find(|(from, _)| *from == at).unwrap();
    let end = image.len() as u64;
    set_end(&mut image, end);
    assert_ne!(offset, at);
    (image, room)
}

#[test]
fn a_page_or_block_that_was_replaced_is_stale() {
    for edition in Edition::BOTH {
        for what in ["node tree", "block tree", "blocks"] {
            let (image, (from, to)) = moved(edition, what);
            let path = file("map_stale.pst", &image);
            assert_eq!(run(&["check"], &path, &[]).status, 0);
            let stretches = stretches(&path);
            for at in [from, to - 64, to - 1] {
                assert_eq!(
                    kind_at(&stretches, at),
                    "stale",
                    "{edition:?} {what} {at:#x}"
                );
            }
            assert_eq!(kind_at(&stretches, image.len() - 1), what);
            assert!(picture(&path, 0).contains("<title>stale: "));
        }
    }
}

#[test]
fn room_that_nothing_lists_is_free_or_stale() {
    let path = file("map_free.pst", &office_bytes());
    let gaps = [(FREE, 0x4A00), (0x9500, 0x9600), (0xAD40, 0xAE00)];
    assert_eq!(of_kind(&stretches(&path), "free"), gaps);
    let mut image = office_bytes();
    image[FREE + 70] = 1;
    let path = file("map_not_free.pst", &image);
    let stretches = stretches(&path);
    assert_eq!(of_kind(&stretches, "free"), gaps[1..]);
    assert_eq!(of_kind(&stretches, "stale"), gaps[..1]);
    assert_eq!(run(&["map"], &path, &[]).status, 0);
}

#[test]
fn maps_are_told_from_what_lies_around_them() {
    for edition in Edition::BOTH {
        let mut made = Made::of(edition);
        made.leave(2_048);
        made.node(0x21, &[7; 300]);
        made.leave(0x3E000 - 2_048 - 320 + 512);
        made.node(0x61, &[8; 300]);
        let mut image = made.image();
        let second = 0x4400 + 0x3E000;
        let plain = file("map_plain.pst", &image);
        assert!(of_kind(&stretches(&plain), "maps").is_empty());
        put_map(&mut image, 0x4200, DENSITY_LIST, 5);
        for (offset, kind) in [(0x4400, 0x84), (0x4600, 0x83), (second, 0x84)] {
            put_map(&mut image, offset, kind, offset as u64);
        }
        let path = file("map_maps.pst", &image);
        let stretches = stretches(&path);
        let wanted = [0x4200, 0x4400, 0x4600, second].map(|offset| (offset, offset + 512));
        assert_eq!(of_kind(&stretches, "maps"), wanted, "{edition:?}");
        assert_eq!(of_kind(&stretches, "reserved"), [(564, 0x4200)]);
        assert_eq!(of_kind(&stretches, "free")[0], (0x4800, 0x4C00));
        assert!(picture(&path, 0).contains(">4 pages, 2,048 bytes</text>"));
    }
}

#[test]
fn a_file_whose_header_is_refused_is_drawn_all_the_same() {
    for (image, status) in [(sealed(0, 7), 1), (sealed(10, 36), 4), (sealed(513, 9), 1)] {
        let path = file("map_header.pst", &image);
        let wanted = [
            ("header".to_string(), 0, 564),
            ("unknown".to_string(), 564, image.len()),
        ];
        assert_eq!(stretches(&path), wanted);
        let picture = picture(&path, status);
        assert!(!picture.contains("-bit ("));
        let answer = run(&["map", "--json"], &path, &[]).json();
        assert!(answer["edition"].is_null());
        assert_eq!(answer["status"], status);
    }
}

#[test]
fn where_a_tree_is_refused_the_rest_is_shown() {
    let sound = stretches(&office());
    let mut image = office_bytes();
    image[BLOCK_LEAVES[1]] ^= 1;
    let refused = stretches(&file("map_tree.pst", &image));
    for kind in ["node tree", "block tree"] {
        assert_eq!(of_kind(&refused, kind), of_kind(&sound, kind));
    }
    let blocks = of_kind(&refused, "blocks");
    assert_eq!(blocks.len(), 25);
    assert!(blocks
        .iter()
        .all(|block| of_kind(&sound, "blocks").contains(block)));
    assert!(of_kind(&refused, "free").is_empty() && of_kind(&refused, "stale").is_empty());
    assert_eq!(kind_at(&refused, FREE), "unknown");
    let mut image = office_bytes();
    image[NODE_ROOT] ^= 1;
    let refused = stretches(&file("map_root.pst", &image));
    assert_eq!(of_kind(&refused, "blocks"), of_kind(&sound, "blocks"));
    assert_eq!(
        of_kind(&refused, "node tree"),
        [(NODE_ROOT, NODE_ROOT + 512)]
    );
    assert_eq!(kind_at(&refused, NODE_LEAVES[0]), "unknown");
}

#[test]
fn what_is_listed_outside_the_file_takes_no_room() {
    let mut image = office_bytes();
    let offset = BLOCK_LEAVES[0] + 8;
    for listed in [0, 0x4401, 0xBFC0, u64::MAX - 63] {
        image[offset..offset + 8].copy_from_slice(&listed.to_le_bytes());
        model::build::seal::seal_page(&mut image, BLOCK_LEAVES[0]);
        let path = file("map_outside.pst", &image);
        let stretches = stretches(&path);
        assert_eq!(of_kind(&stretches, "blocks").len(), 44, "{listed:#x}");
        assert_eq!(kind_at(&stretches, BLOCK), "stale", "{listed:#x}");
        picture(&path, 1);
    }
}

#[test]
fn any_name_stands_in_the_picture() {
    let folder = folder("map_names");
    let name = b"a<b>&\"c\"'\xFF\x1b\xEF\xBF\xBE.pst";
    let path = folder.join(OsStr::from_bytes(name));
    fs::copy(office(), &path).unwrap();
    let drawn = picture(&path, 0);
    let shown = "a&lt;b&gt;&amp;&quot;c&quot;'\\xff\\u{1b}\\u{fffe}.pst";
    assert!(drawn.contains(&format!(">{shown}</text>")));
    assert!(drawn.contains(&format!(">Map of {shown}</title>")));
    let long = folder.join(format!("{}.pst", "W".repeat(200)));
    fs::copy(office(), &long).unwrap();
    assert!(picture(&long, 0).contains(&format!(">{}\u{2026}</text>", "W".repeat(53))));
    let standard = run_in(&folder, "cat *W.pst | ./rekwonuda map -");
    assert!(standard.text.contains(">standard input</text>"));
}

/// Draws the sample with those words behind, in a folder.
fn draw(folder: &Path, words: &str) -> Run {
    run_in(folder, &format!("./rekwonuda map in.pst {words}"))
}

#[test]
fn the_picture_goes_to_a_file_that_is_asked_for() {
    let folder = folder("map_writes");
    fs::copy(office(), folder.join("in.pst")).unwrap();
    let plain = draw(&folder, "").text;
    assert_eq!(draw(&folder, "-o -").text, plain);
    let told = format!("{} bytes written to out.svg\n", plain.len());
    let told = told.replacen(&plain.len().to_string(), &grouped(plain.len()), 1);
    assert_eq!(draw(&folder, "-o out.svg").text, told);
    assert_eq!(fs::read_to_string(folder.join("out.svg")).unwrap(), plain);
    assert_eq!(draw(&folder, "-o out.svg").status, 2);
    fs::write(folder.join("out.svg"), "old").unwrap();
    let answer = draw(&folder, "-o out.svg --force --json").json();
    assert_eq!(
        (&answer["output"], &answer["status"]),
        (&"out.svg".into(), &0.into())
    );
    assert_eq!(fs::read_to_string(folder.join("out.svg")).unwrap(), plain);
    let source = draw(&folder, "-o ./in.pst --force");
    assert_eq!(source.status, 2);
    assert!(source.errors.contains("it is the file that is read"));
    assert_eq!(listed(&folder), ["in.pst", "out.svg"]);
}

fn grouped(number: usize) -> String {
    format!("{},{:03}", number / 1_000, number % 1_000)
}

#[test]
fn a_terminal_gets_the_amounts() {
    let sent = sent(80, &format!("map {}", office().display()));
    for words in [
        "blocks       45 blocks, 26,496 bytes",
        "stale        none",
        "-o OUT writes the picture to a file",
    ] {
        assert!(sent.contains(words), "{sent}");
    }
    assert!(!sent.contains("<svg"));
}

/// The size of the large file, by the mail of which the picture must be readable.
const LARGE: usize = 59_000_000;

fn large(edition: Edition) -> Built {
    let plan = Plan {
        edition,
        method: 1,
        block_nodes: 14_300,
        bare_nodes: 2_000,
        most_size: 8_176,
        ..Plan::default()
    };
    build(11, &plan)
}

#[test]
fn a_large_file_has_a_small_picture() {
    for edition in Edition::BOTH {
        let built = large(edition);
        let size = built.image.len();
        assert!((LARGE..LARGE + 4_000_000).contains(&size), "{size}");
        let path = file(&format!("map_large_{edition:?}.pst"), &built.image);
        let begun = Instant::now();
        let drawn = picture(&path, 0);
        assert!(
            begun.elapsed() < Duration::from_secs(30),
            "{:?}",
            begun.elapsed()
        );
        assert!(drawn.len() < 500_000, "{}", drawn.len());
        let rows = rows(&drawn);
        assert_eq!((rows.len(), rows[1].1), (size.div_ceil(1 << 20), 1 << 20));
        assert_eq!(attribute(&drawn, "width"), 1_000);
        assert!(attribute(&drawn, "height") <= 1_200);
        assert_eq!(of_kind(&stretches(&path), "blocks"), placed_blocks(&built));
        fs::remove_file(path).unwrap();
    }
}

#[test]
fn a_file_that_is_too_long_is_not_looked_at() {
    let path = file("map_long.pst", b"");
    let length = (1_u64 << 30) + 1;
    File::create(&path).unwrap().set_len(length).unwrap();
    let wanted = [("unknown".to_string(), 0, length as usize)];
    assert_eq!(stretches(&path), wanted);
    let drawn = picture(&path, 4);
    assert!(drawn.contains(">1,073,741,825 bytes, not covered</text>"));
    fs::remove_file(path).unwrap();
}
