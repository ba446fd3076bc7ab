//! Files that do not end where their header says: what is told of it, and that what hangs on changes
//! nothing else.

use crate::check::refused;
use crate::runs::{file, folder, office, run, run_in, Run};
use crate::spoilt::{ending, office_bytes, BLOCK_LEAVES, NODE_LEAVES, NODE_ROOT};
use model::build::seal::{seal_block, seal_page};
use serde_json::json;
use std::fs;

/// The length of samples/office.pst, which is also what its header says.
const SIZE: u64 = 0xC000;

/// Block 4 of the sample: where it stands, and its 204 bytes take a room of 256.
const BLOCK: usize = 0x4400;
const ROOM: usize = 256;

fn office_and(tail: &[u8]) -> Vec<u8> {
    [office_bytes().as_slice(), tail].concat()
}

/// A leaf page, in itself as sound as when it stood in its place.
fn old_page() -> Vec<u8> {
    office_bytes()[NODE_LEAVES[0]..NODE_LEAVES[0] + 512].to_vec()
}

/// The sample with block 4 moved to behind all else.
fn with_block_behind() -> Vec<u8> {
    let block = office_bytes()[BLOCK..BLOCK + ROOM].to_vec();
    let mut image = office_and(&block);
    seal_block(&mut image, SIZE as usize, 204, 4);
    let offset = BLOCK_LEAVES[0] + 8;
    image[offset..offset + 8].copy_from_slice(&SIZE.to_le_bytes());
    seal_page(&mut image, BLOCK_LEAVES[0]);
    image
}

fn says_all(run: &Run, status: i32, words: &[&str]) {
    let said = format!("{}{}", run.text, run.errors);
    assert_eq!(run.status, status, "{said}");
    for words in words {
        assert!(run.says(words), "it does not say {words:?}:\n{said}");
    }
}

#[test]
fn info_tells_the_end_and_what_hangs_on() {
    let told = |name: &str, image: &[u8], words: &str, end: u64, hanging: u64| {
        let path = file(name, image);
        let text = run(&["info"], &path, &[]);
        assert!(text.says(words), "{}", text.text);
        let answer = run(&["info", "--json"], &path, &[]).json();
        assert_eq!(answer["size"], image.len().to_string());
        assert_eq!(answer["end"], end.to_string());
        assert_eq!(answer["hanging"], hanging);
        assert_eq!(answer["status"], text.status);
    };
    let words = "end 0xc000 (49,152), by the header; nothing hangs on behind method";
    told("end_info.pst", &office_bytes(), words, SIZE, 0);
    let words = "end 0xc000 (49,152), by the header; 1 byte hangs on behind method";
    told("end_info_1.pst", &office_and(&[0]), words, SIZE, 1);
    let words = "end 0xc000 (49,152), by the header; 4,096 bytes hang on behind";
    told("end_info_2.pst", &office_and(&[7; 4096]), words, SIZE, 4096);
    let words = "end 0x0 (0), by the header; 48,588 bytes hang on behind";
    told(
        "end_info_3.pst",
        &ending(office_bytes(), 0),
        words,
        0,
        48_588,
    );
}

/// Checks the sample with that behind it: accepted, with a remark.
fn remarked(name: &str, tail: &[u8], remark: &str) {
    let path = file(name, &office_and(tail));
    let whole =
        "What hangs on is no part of the file, and no answer depends on it; by itself it is no fault.";
    let whole = format!("{remark}. {whole}");
    let sound = run(&["check"], &office(), &[]);
    for all in [&["check"][..], &["check", "--all"]] {
        let text = run(all, &path, &[]);
        says_all(&text, 0, &[&format!("Remark: {whole} accepted: header,")]);
        let without: Vec<&str> = text.text.split("Remark:").collect();
        assert!(sound.text.starts_with(without[0]), "{}", text.text);
        assert_eq!(sound.text.lines().last(), text.text.lines().last());
        let answer = run(&[all, &["--json"]].concat(), &path, &[]).json();
        assert_eq!(answer["remarks"], json!([whole]));
        assert_eq!(answer["refusals"], json!([]));
        assert_eq!(
            (&answer["outcome"], &answer["status"]),
            (&"accepted".into(), &0.into())
        );
        let header = json!({
            "stage": "header", "outcome": "accepted", "method": "permute",
            "end": "49152", "hanging": tail.len(),
        });
        assert_eq!(answer["stages"][0], header);
    }
}

#[test]
fn what_hangs_on_is_remarked_and_no_fault() {
    let ends = "By its header the file ends at 0xc000 (49,152)";
    let told = |rest: &str| format!("{ends}; {rest}");
    remarked("end_1.pst", &[0], &told("1 byte hangs on behind, all zero"));
    let words = told("4,096 bytes hang on behind, all zero");
    remarked("end_zeros.pst", &[0; 4096], &words);
    let words = told("512 bytes hang on behind, not all zero");
    remarked("end_page.pst", &old_page(), &words);
    let sound = run(&["check"], &office(), &[]);
    assert!(!sound.says("emark"), "{}", sound.text);
    let answer = run(&["check", "--json"], &office(), &[]).json();
    assert_eq!(answer["remarks"], json!([]));
}

#[test]
fn a_remark_stands_beside_a_refusal() {
    let mut image = office_and(&old_page());
    image[BLOCK + 92] ^= 1;
    let words = [
        "Remark: By its header the file ends at 0xc000 (49,152); 512 bytes hang on behind, not all zero",
        "by itself it is no fault. What is wrong: The checksum of a block differs",
        "used by the data of node 0x21",
    ];
    refused("end_damaged.pst", &image, 1, 15, BLOCK as u64, &words);
}

#[test]
fn of_several_files_the_remark_stands_in_the_line() {
    let top = folder("end_many");
    fs::write(top.join("hanging.pst"), office_and(&[0; 64])).unwrap();
    fs::write(top.join("plain.pst"), office_bytes()).unwrap();
    let mut image = office_and(&[1]);
    image[BLOCK + 92] ^= 1;
    fs::write(top.join("wrong.pst"), image).unwrap();
    let ends = "remark: by its header the file ends at 0xc000 (49,152)";
    for (words, refusal) in [("check", "(refusal 15)"), ("check --all", "of 60 nodes)")] {
        let run = run_in(&top, &format!("./rekwonuda {words} ."));
        assert_eq!(run.status, 1);
        let mut lines: Vec<&str> = run.text.lines().take(3).collect();
        lines.sort_unstable();
        let hanging =
            format!("accepted     ./hanging.pst: {ends}; 64 bytes hang on behind, all zero");
        assert_eq!(lines[..2], [hanging.as_str(), "accepted     ./plain.pst"]);
        let wrong = format!("{refusal}; {ends}; 1 byte hangs on behind, not all zero");
        assert!(lines[2].ends_with(&wrong), "{}", lines[2]);
        assert!(run.says("3 files: 2 accepted, 1 damaged,"), "{}", run.text);
    }
}

#[test]
fn what_hangs_on_changes_no_other_answer() {
    let folder = folder("end_same");
    let same = |name: &str, image: &[u8], tail: &[u8]| {
        let [plain, longer] = ["plain", "longer"].map(|kind| folder.join(format!("{name}.{kind}")));
        fs::write(&plain, image).unwrap();
        fs::write(&longer, [image, tail].concat()).unwrap();
        let commands: [(&[&str], &[&str]); 9] = [
            (&["nodes"], &[]),
            (&["blocks"], &[]),
            (&["folders"], &[]),
            (&["find"], &["0x21", "0x122", "0x7", "0x200284"]),
            (&["node"], &["0x21"]),
            (&["node"], &["0x200284"]),
            (&["props"], &["0x21"]),
            (&["table"], &["0x808e"]),
            (&["table", "--csv"], &["0x808e"]),
        ];
        for (words, rest) in commands {
            let [one, other] = [&plain, &longer].map(|path| run(words, path, rest));
            assert_eq!(one.status, other.status, "{name}: {words:?}");
            assert_eq!(one.bytes, other.bytes, "{name}: {words:?}");
            assert_eq!(one.errors, other.errors, "{name}: {words:?}");
        }
    };
    let mut damaged = office_bytes();
    damaged[NODE_LEAVES[1] + 9] ^= 1;
    for (name, tail) in [
        ("zeros", vec![0; 700]),
        ("page", old_page()),
        ("twice", office_bytes()),
    ] {
        same(name, &office_bytes(), &tail);
        same(&format!("{name}_damaged"), &damaged, &tail);
    }
}

#[test]
fn a_file_shorter_than_its_header_says_was_cut_short() {
    let image = office_bytes();
    let words = [
        "header refused",
        "The file is shorter than its header says (refusal 1)",
        "0xb8 (184): the header says that the file ends at 0xc000 (49,152), and it has only 40,000 \
         bytes, 9,152 too few",
        "The file was cut short in transfer",
        "Ask for it again",
        "damaged: header refused; not looked at: node tree,",
    ];
    let run_check = refused("end_cut.pst", &image[..40_000], 1, 1, 184, &words);
    assert!(!run_check.says("emark"), "{}", run_check.text);
    let path = file("end_cut_1.pst", &image[..SIZE as usize - 1]);
    let words = ["it has only 49,151 bytes, 1 too few", "cut short"];
    for (command, rest) in [
        ("info", &[][..]),
        ("nodes", &[]),
        ("node", &["0x21"]),
        ("props", &["0x21"]),
        ("find", &["0x21"]),
        ("folders", &[]),
    ] {
        says_all(&run(&[command], &path, rest), 1, &words);
    }
    let answer = run(&["info", "--json"], &path, &[]).json();
    assert_eq!(answer["size"], "49151");
    assert!(answer["end"].is_null() && answer["method"].is_null());
}

#[test]
fn a_number_above_the_length_is_told_as_it_stands() {
    let image = ending(office_bytes(), SIZE + 1);
    let words = ["ends at 0xc001 (49,153), and it has only 49,152 bytes, 1 too few"];
    refused("end_above.pst", &image, 1, 1, 184, &words);
    let words = [
        "ends at 0x40000000 (1,073,741,824), and",
        "Ask for it again",
    ];
    let image = ending(image, 1 << 30);
    refused("end_gib.pst", &image, 1, 1, 184, &words);
    let words = [
        "ends at 0x40000001 (1,073,741,825), and",
        "By its header a whole copy has more than 1 GiB",
        "ask for both",
    ];
    let image = ending(image, (1 << 30) + 1);
    refused("end_long.pst", &image, 1, 1, 184, &words);
    let words = ["18,446,744,073,709,502,463 too few"];
    let image = ending(image, u64::MAX);
    refused("end_most.pst", &image, 1, 1, 184, &words);
    let mut image = image;
    image[513] = 3;
    let image = ending(image, u64::MAX);
    refused(
        "end_last.pst",
        &image,
        1,
        5,
        513,
        &["00, 01 or 02, and is 03"],
    );
}

#[test]
fn with_a_number_of_0_the_header_is_accepted_and_no_page_is() {
    let image = ending(office_bytes(), 0);
    let words = [
        "header accepted method permute node tree refused",
        "Remark: By its header the file ends at 0x0 (0); 48,588 bytes hang on behind, not all zero",
        "refers to a page there, but by the header the file ends at 0x0 (0), and 512 bytes are needed \
         there; what hangs on behind does not count",
        "The header and the tree do not go together",
    ];
    refused("end_0.pst", &image, 1, 6, NODE_ROOT as u64, &words);
}

#[test]
fn a_page_that_lies_in_the_image_and_not_in_the_file_is_refused() {
    let end = NODE_ROOT as u64 + 511;
    let image = ending(office_bytes(), end);
    let words = [
        "node tree refused",
        "A reference names a place where no page can stand (refusal 6)",
        "0xbe00 (48,640): the node tree",
        "but by the header the file ends at 0xbfff (49,151), and 512 bytes are needed there; what \
         hangs on behind does not count",
        "may be of an earlier state of the file, and is not read",
    ];
    refused("end_behind.pst", &image, 1, 6, NODE_ROOT as u64, &words);
    let path = file("end_blocks.pst", &image);
    assert_eq!(run(&["blocks"], &path, &[]).status, 0);
    let nodes = run(&["nodes"], &path, &[]);
    says_all(
        &nodes,
        1,
        &["by the header the file ends at 0xbfff (49,151)"],
    );
}

#[test]
fn a_block_that_lies_in_the_image_and_not_in_the_file_is_refused() {
    let image = with_block_behind();
    let whole = ending(image.clone(), SIZE + ROOM as u64);
    let run_check = run(&["check"], &file("end_whole.pst", &whole), &[]);
    assert_eq!(run_check.status, 0, "{}", run_check.text);
    let why =
        "is listed there, but by the header the file ends at 0xc000 (49,152), and 256 bytes are \
        needed there; what hangs on behind does not count";
    let listed = format!(
        "0xc000 (49,152): data block 0x4, of 204 bytes, {why}; used by the data of node 0x21"
    );
    let words = [
        "block tree accepted",
        "blocks refused",
        &listed,
        "256 bytes hang on behind, not all zero",
    ];
    refused("end_block.pst", &image, 1, 13, SIZE, &words);
    let path = file("end_node.pst", &image);
    let words = format!("block 0x4, the data of node 0x21 (message store), {why}");
    says_all(&run(&["node"], &path, &["0x21"]), 1, &[&words]);
    assert_eq!(run(&["node"], &path, &["0x122"]).status, 0);
}
