//! What README shows of the command line is what it prints.

use crate::runs::{folder, repository, run_in};
use std::fs;
use std::os::unix::fs::symlink;

/// The first block of code behind some words, and the one behind that.
fn blocks_behind<'a>(page: &'a str, words: &str) -> [&'a str; 2] {
    let (_, rest) = page.split_once(words).expect("README has these words");
    let mut blocks = rest.split("```").skip(1).step_by(2);
    [blocks.next().unwrap(), blocks.next().unwrap()]
}

#[test]
fn readme_shows_what_is_printed() {
    let page = fs::read_to_string(repository("README.md")).unwrap();
    let folder = folder("readme");
    symlink(repository("samples"), folder.join("samples")).unwrap();
    let [_, sound] = blocks_behind(&page, "## Run it");
    let run = run_in(&folder, "./rekwonuda check samples/office.pst");
    assert_eq!(
        (run.status, run.text.as_str()),
        (0, sound.trim_start_matches('\n'))
    );
    let [script, folders] = blocks_behind(&page, "The folders of the sample:");
    let run = run_in(&folder, script.strip_prefix("sh\n").unwrap());
    assert_eq!(
        (run.status, run.text.as_str()),
        (0, folders.trim_start_matches('\n'))
    );
    let [script, old] = blocks_behind(
        &page,
        "The same mail in a file of the older 32-bit edition:",
    );
    let run = run_in(&folder, script.strip_prefix("sh\n").unwrap());
    assert_eq!(
        (run.status, run.text.as_str()),
        (0, old.trim_start_matches('\n'))
    );
    let [script, damaged] = blocks_behind(&page, "A damaged file:");
    let run = run_in(&folder, script.strip_prefix("sh\n").unwrap());
    assert_eq!(
        (run.status, run.text.as_str()),
        (1, damaged.trim_start_matches('\n'))
    );
    assert_eq!(run.errors, "");
}
