//! `node`: the data of a node, and that nothing is harmed by writing it.

use crate::images::{sample, sound};
use crate::runs::{file, folder, listed, office, run, run_in, Folder, Run};
use crate::spoilt::{changed, with_tree};
use model::Node;
use std::fs;
use std::os::unix::fs::{symlink, PermissionsExt};
use std::path::Path;

fn number(node: &Node) -> String {
    format!("{:#x}", node.node)
}

#[test]
fn node_hands_out_the_data_of_every_node() {
    let built = sound();
    let path = file("node.pst", &built.image);
    for node in &built.nodes {
        let run = run(&["node"], &path, &[&number(node)]);
        assert_eq!(run.status, 0, "{}", run.errors);
        assert_eq!(run.bytes, built.data(node));
    }
}

#[test]
fn node_answers_in_json() {
    let built = sound();
    let node = with_tree(&built);
    let path = file("node_json.pst", &built.image);
    let hex: String = built
        .data(node)
        .iter()
        .map(|byte| format!("{byte:02x}"))
        .collect();
    for rest in [&[number(node).as_str()][..], &[&number(node), "-o", "-"]] {
        let answer = run(&["node", "--json"], &path, rest).json();
        assert_eq!(answer["node"], node.node);
        assert_eq!(answer["length"], hex.len() / 2);
        assert_eq!(answer["data"], hex.as_str());
    }
}

#[test]
fn an_absent_node_is_an_answer_with_status_3() {
    for words in [["node"], ["props"]] {
        let text = run(&words, &sample(), &["32"]);
        assert_eq!(text.status, 3);
        assert!(
            text.errors.contains("node 0x20 is absent"),
            "{}",
            text.errors
        );
        let answer = run(&words, &sample(), &["0x20", "--json"]);
        assert_eq!(
            (answer.status, answer.json()["outcome"].clone()),
            (3, "absent".into())
        );
    }
}

/// Writes a node's data with those words behind, in a folder.
fn write(folder: &Path, words: &str) -> Run {
    run_in(folder, &format!("./rekwonuda node in.pst 0x21 {words}"))
}

/// A folder with the sample in it as `in.pst`.
fn with_sample(name: &str) -> Folder {
    let folder = folder(name);
    fs::copy(office(), folder.join("in.pst")).unwrap();
    folder
}

#[test]
fn node_writes_a_file_and_leaves_nothing_else() {
    let folder = with_sample("node_writes");
    let data = write(&folder, "-o -").bytes;
    assert_eq!(data.len(), 204);
    let run = write(&folder, "-o out.bin");
    assert_eq!(
        (run.status, run.text.as_str()),
        (0, "204 bytes written to out.bin\n")
    );
    assert_eq!(fs::read(folder.join("out.bin")).unwrap(), data);
    assert_eq!(listed(&folder), ["in.pst", "out.bin"]);
}

#[test]
fn the_file_that_is_read_is_never_written() {
    let folder = with_sample("node_source");
    fs::hard_link(folder.join("in.pst"), folder.join("hard")).unwrap();
    symlink("in.pst", folder.join("soft")).unwrap();
    symlink("soft", folder.join("softer")).unwrap();
    let names = [
        "in.pst",
        "./in.pst",
        "../node_source/in.pst",
        "hard",
        "soft",
        "softer",
    ];
    for name in names {
        for force in ["", " --force"] {
            let run = write(&folder, &format!("-o {name}{force}"));
            assert_eq!(run.status, 2, "{name}{force}");
            assert!(
                run.errors.contains("it is the file that is read"),
                "{}",
                run.errors
            );
        }
    }
    let standard = run_in(
        &folder,
        "./rekwonuda node - 0x21 --force -o in.pst < in.pst",
    );
    assert_eq!(standard.status, 2, "{}", standard.errors);
    assert_eq!(
        fs::read(folder.join("in.pst")).unwrap(),
        fs::read(office()).unwrap()
    );
    assert_eq!(listed(&folder), ["hard", "in.pst", "soft", "softer"]);
}

#[test]
fn a_file_that_is_there_is_replaced_by_force_alone() {
    let folder = with_sample("node_force");
    let kept = |name: &str| fs::read(folder.join(name)).unwrap();
    fs::create_dir(folder.join("sub")).unwrap();
    fs::write(folder.join("sub/there"), "kept").unwrap();
    symlink("sub/there", folder.join("link")).unwrap();
    for name in ["sub/there", "link"] {
        let run = write(&folder, &format!("-o {name}"));
        assert_eq!(run.status, 2, "{name}");
        assert!(
            run.errors.contains("--force is not given"),
            "{}",
            run.errors
        );
        assert_eq!(kept("sub/there"), b"kept");
    }
    for name in ["sub/there", "link"] {
        fs::write(folder.join("sub/there"), "kept").unwrap();
        run_in(&folder, "chmod 600 sub/there");
        assert_eq!(write(&folder, &format!("--force -o {name}")).status, 0);
        assert_eq!(kept("sub/there").len(), 204);
        let there = fs::metadata(folder.join("sub/there")).unwrap();
        assert_eq!(there.permissions().mode() & 0o777, 0o600);
        assert!(folder.join("link").is_symlink());
    }
    symlink("nowhere", folder.join("dangling")).unwrap();
    assert_eq!(write(&folder, "-o dangling").status, 2);
    assert_eq!(write(&folder, "-o dangling --force").status, 2);
    assert_eq!(listed(&folder), ["dangling", "in.pst", "link", "sub"]);
    assert_eq!(listed(&folder.join("sub")), ["there"]);
}

#[test]
fn what_is_no_plain_file_is_not_replaced() {
    let folder = with_sample("node_odd");
    fs::create_dir(folder.join("sub")).unwrap();
    run_in(&folder, "mkfifo pipe; ln -s /dev/null null");
    for name in ["sub", "pipe", "null", "/dev/full"] {
        let run = write(&folder, &format!("--force -o {name}"));
        assert_eq!(run.status, 2, "{name}");
        assert!(run.errors.contains("is no plain file"), "{}", run.errors);
    }
    assert_eq!(listed(&folder), ["in.pst", "null", "pipe", "sub"]);
}

#[test]
fn a_write_that_fails_leaves_nothing_behind() {
    let folder = with_sample("node_fails");
    fs::write(folder.join("there"), "kept").unwrap();
    // No file may be longer than 0 blocks.
    let limited = run_in(&folder, "ulimit -f 0; trap '' XFSZ; ./rekwonuda node in.pst 0x21 -o new; s=$?; ./rekwonuda node in.pst 0x21 -o there --force || exit $s");
    assert_eq!(limited.status, 2, "{}", limited.errors);
    assert!(
        limited.errors.contains("cannot write new: File too large"),
        "{}",
        limited.errors
    );
    assert_eq!(write(&folder, "-o no/such.bin").status, 2);
    assert_eq!(fs::read_to_string(folder.join("there")).unwrap(), "kept");
    assert_eq!(listed(&folder), ["in.pst", "there"]);
}

#[test]
fn a_read_that_is_refused_writes_nothing() {
    let built = sound();
    let node = with_tree(&built);
    let last = *built.parts(node).last().unwrap();
    let image = changed(&built, built.block(last).unwrap().offset);
    let folder = folder("node_refused");
    fs::write(folder.join("in.pst"), image).unwrap();
    fs::write(folder.join("there"), "kept").unwrap();
    for out in ["new", "there --force"] {
        let script = format!("./rekwonuda node in.pst {} -o {out}", number(node));
        let damaged = run_in(&folder, &script);
        assert_eq!(damaged.status, 1);
        assert!(damaged.errors.contains("refusal 15"), "{}", damaged.errors);
    }
    assert_eq!(listed(&folder), ["in.pst", "there"]);
    assert_eq!(fs::read_to_string(folder.join("there")).unwrap(), "kept");
}
