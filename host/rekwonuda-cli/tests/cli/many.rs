//! `check` of several files and of folders.

use crate::runs::{emulated, file, folder, office, run, run_in, Folder, Run};
use crate::spoilt::{flipped, sealed};
use serde_json::Value;
use std::fs::{self, File};
use std::os::unix::fs::symlink;
use std::path::{Path, PathBuf};

/// A folder with files of every kind, and what would lead a careless search astray.
fn mixed(name: &str) -> Folder {
    let top = folder(name);
    let deep = top.join("deep/deeper.pst");
    fs::create_dir_all(&deep).unwrap();
    fs::copy(office(), top.join("a.pst")).unwrap();
    fs::copy(office(), deep.join("B.PST")).unwrap();
    fs::write(deep.join("bad.Pst"), flipped(100)).unwrap();
    fs::write(deep.join("other.pst"), sealed(10, 36)).unwrap();
    fs::write(deep.join("note.txt"), "no mail").unwrap();
    File::create(top.join("long.pst"))
        .unwrap()
        .set_len((1 << 30) + 1)
        .unwrap();
    symlink("..", deep.join("up")).unwrap();
    symlink("../..", deep.join("up.pst")).unwrap();
    symlink("nowhere", top.join("dangling.pst")).unwrap();
    run_in(&top, "mkfifo pipe.pst");
    top
}

fn lines(run: &Run) -> Vec<String> {
    let mut lines: Vec<_> = run.text.lines().map(str::to_string).collect();
    lines.sort();
    lines
}

const SUMMARY: &str =
    "7 files: 2 accepted, 1 damaged, 2 not covered, 2 unreadable; not looked at: subnodes, heaps";

#[test]
fn folders_are_searched_and_every_file_is_told() {
    let top = mixed("many_mixed");
    let runs = ["1", "4"].map(|jobs| run_in(&top, &format!("./rekwonuda check . --jobs {jobs}")));
    for run in &runs {
        assert_eq!((run.status, run.errors.as_str()), (2, ""));
        assert_eq!(run.text.lines().last(), Some(SUMMARY));
    }
    assert_eq!(lines(&runs[0]), lines(&runs[1]));
    for told in [
        "accepted     ./a.pst",
        "accepted     ./deep/deeper.pst/B.PST",
        "damaged      ./deep/deeper.pst/bad.Pst: 0x4 (4): the header's checksum",
        "not covered  ./deep/deeper.pst/other.pst: 0xa (10): the header, its version: 36",
        "not covered  ./long.pst: the whole file: 1,073,741,825 bytes",
        "unreadable   ./dangling.pst: No such file or directory",
        "unreadable   ./pipe.pst: it is no plain file",
    ] {
        let count = runs[0]
            .text
            .lines()
            .filter(|line| line.starts_with(told))
            .count();
        assert_eq!(count, 1, "{told}\n{}", runs[0].text);
    }
}

#[test]
fn each_file_is_an_object_on_a_line() {
    let top = mixed("many_json");
    let run = run_in(&top, "./rekwonuda check --json .");
    assert_eq!((run.status, run.errors.as_str()), (2, ""));
    let objects: Vec<Value> = run
        .text
        .lines()
        .map(|line| serde_json::from_str(line).unwrap())
        .collect();
    assert_eq!(objects.len(), 8);
    let (summary, files) = objects.split_last().unwrap();
    let count = |status: u64| files.iter().filter(|file| file["status"] == status).count();
    assert_eq!([0, 1, 2, 4].map(count), [2, 1, 2, 2]);
    assert_eq!(summary["summary"]["unreadable"], 2);
    assert_eq!(summary["status"], 2);
}

#[test]
fn the_worst_file_decides_the_exit_status() {
    let good = office();
    let bad = file("many_bad.pst", &flipped(100));
    let other = file("many_other.pst", &sealed(10, 36));
    let nothing = folder("many_empty");
    let empty = nothing.to_path_buf();
    let none = Path::new("no/such.pst").to_path_buf();
    let cases: [(&[&PathBuf], i32); 6] = [
        (&[&good, &good], 0),
        (&[&good, &empty], 3),
        (&[&empty, &other], 4),
        (&[&other, &bad, &good], 1),
        (&[&none, &bad, &other], 2),
        (&[&empty], 3),
    ];
    for (paths, status) in cases {
        let rest: Vec<&str> = paths[1..]
            .iter()
            .map(|path| path.to_str().unwrap())
            .collect();
        let run = run(&["check"], paths[0], &rest);
        assert_eq!(run.status, status, "{}", run.text);
        assert_eq!(run.text.lines().count(), paths.len() + 2, "{}", run.text);
        let empty = paths.contains(&&empty);
        assert_eq!(
            run.says("; no .pst file in 1 folder;"),
            empty,
            "{}",
            run.text
        );
    }
}

#[test]
fn standard_input_is_one_of_many_but_once() {
    let sample = office();
    let named = sample.display();
    let here = Path::new(".");
    let run = run_in(here, &format!("./rekwonuda check - {named} < {named}"));
    assert_eq!(run.status, 0, "{}", run.errors);
    assert!(
        run.text.contains("accepted     standard input\n"),
        "{}",
        run.text
    );
    let twice = run_in(here, &format!("./rekwonuda check - - < {named}"));
    assert_eq!((twice.status, twice.text.as_str()), (2, ""));
    let twice = run_in(here, &format!("./rekwonuda check --json - - < {named}"));
    assert_eq!(
        (twice.status, twice.json()["status"].clone()),
        (2, 2.into())
    );
}

#[test]
fn all_gives_the_counts_of_each_file() {
    let built = crate::images::sound();
    let mut image = built.image.clone();
    for block in built.blocks.iter().take(3) {
        image[block.offset] ^= 1;
    }
    let path = file("many_all.pst", &image);
    let run = run(&["check", "--all"], &path, &[office().to_str().unwrap()]);
    assert_eq!(run.status, 1);
    let told = format!(
        "blocks refused (3 of {} blocks); node data refused (",
        built.blocks.len()
    );
    assert!(run.text.contains(&told), "{}", run.text);
}

#[test]
fn memory_is_bounded_by_the_number_of_jobs() {
    if emulated() {
        return;
    }
    let top = folder("many_large");
    for at in 0..6 {
        let name = format!("{at}.pst");
        File::create(top.join(name))
            .unwrap()
            .set_len(100 << 20)
            .unwrap();
    }
    let run = run_in(&top, "ulimit -v 300000; ./rekwonuda check --jobs 1 .");
    assert_eq!(run.status, 1, "{}", run.errors);
    assert!(run.says("6 files: 0 accepted, 6 damaged"), "{}", run.text);
}
