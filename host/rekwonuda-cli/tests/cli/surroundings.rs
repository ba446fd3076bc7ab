//! Odd surroundings: pipes that close, a full disk, odd names, wrong usage.

use crate::images::{sample, sound};
use crate::runs::{command, file, folder, office, run, run_in, words};
use model::build::{build, Plan};
use std::ffi::OsStr;
use std::fs;
use std::io::Read;
use std::os::unix::ffi::OsStrExt;
use std::path::Path;
use std::process::Stdio;

#[test]
fn wrong_usage_has_status_2() {
    let nothing: [&str; 0] = [];
    let commands = [&["check"][..], &["find"], &["node"], &["props"], &["table"]];
    let commands = [&commands[..], &[&["folders"], &["map"], &["mend"]]].concat();
    for words in commands.iter().chain(&[&nothing[..]]) {
        let run = run(words, Path::new("--none"), &[]);
        assert_eq!(run.status, 2, "{words:?}");
        assert!(run.errors.contains("Usage"), "{}", run.errors);
    }
    for wrong in ["0x", "1x", "-1", "+1", "0x+1", "0x100000000"] {
        let run = run(&["node"], &sample(), &["--", wrong]);
        assert_eq!(run.status, 2, "{wrong}");
        let told = "a node number is decimal or 0x";
        assert!(run.errors.contains(told), "{}", run.errors);
    }
    for wrong in ["0", "+1", "-1", "x"] {
        let run = run(&["check"], &sample(), &[&format!("--jobs={wrong}")]);
        assert_eq!(run.status, 2, "{wrong}");
    }
}

#[test]
fn a_file_that_cannot_be_read_has_status_2() {
    let absent = run(&["check"], Path::new("no/such.pst"), &[]);
    assert_eq!(absent.status, 2);
    assert!(absent.errors.contains("cannot read no/such.pst"));
    let folder = run(&["info"], Path::new(env!("CARGO_TARGET_TMPDIR")), &[]);
    assert_eq!(folder.status, 2);
}

#[test]
fn a_reader_that_stops_reading_is_no_panic() {
    let plan = Plan {
        bare_nodes: 20_000,
        tidy: true,
        ..Plan::default()
    };
    let path = file("unread.pst", &build(3, &plan).image);
    let several = [path.to_str().unwrap(); 3];
    let numbers = vec!["1"; 20_000];
    let lists: [(&[&str], &[&str]); 8] = [
        (&["nodes"], &[]),
        (&["map"], &[]),
        (&["map", "--json"], &[]),
        (&["find"], &numbers),
        (&["nodes", "--json"], &[]),
        (&["check"], &[]),
        (&["check"], &several),
        (&["check", "--json"], &several),
    ];
    for (words, rest) in lists {
        let mut child = command(words, &path, rest)
            .stdout(Stdio::piped())
            .stderr(Stdio::piped())
            .spawn()
            .unwrap();
        drop(child.stdout.take());
        let status = child.wait().unwrap();
        let mut errors = String::new();
        let mut pipe = child.stderr.take().unwrap();
        pipe.read_to_string(&mut errors).unwrap();
        assert_eq!((errors.as_str(), status.code()), ("", Some(2)), "{words:?}");
    }
}

#[test]
fn standard_error_may_be_full_or_closed() {
    let folder = folder("full_errors");
    fs::write(folder.join("bad.pst"), b"no mail").unwrap();
    fs::copy(office(), folder.join("in.pst")).unwrap();
    for (words, status) in [
        ("mend", 2),
        ("info none.pst", 2),
        ("info bad.pst", 1),
        ("node in.pst 0x20", 3),
        ("find in.pst 0x21 0x20", 1),
        ("find bad.pst 0x21", 1),
        ("props in.pst 0x200284", 4),
        ("table in.pst 0x21", 4),
        ("table in.pst 0x20", 3),
        ("folders bad.pst", 1),
        ("map bad.pst", 1),
        ("map in.pst -o in.pst", 2),
        ("node in.pst 0x21 -o in.pst", 2),
        ("check none.pst bad.pst", 2),
        ("check in.pst", 0),
    ] {
        for sink in ["2>/dev/full", "2>&-", ">&- 2>&-"] {
            let run = run_in(&folder, &format!("./rekwonuda {words} {sink}"));
            assert_eq!(run.status, status, "{words} {sink}");
        }
    }
}

#[test]
fn standard_output_that_is_full_has_status_2() {
    let sample = office();
    let named = sample.display();
    let commands = ["check", "check --json", "info", "nodes", "blocks --json"];
    let trees = ["folders", "folders --json", "map", "map --json"];
    for words in commands.iter().chain(&trees) {
        let run = run_in(
            Path::new("."),
            &format!("./rekwonuda {words} {named} >/dev/full"),
        );
        assert_eq!(run.status, 2, "{words}");
        let told = "cannot write to standard output: No space left";
        assert!(run.errors.contains(told), "{words}: {}", run.errors);
    }
    let found = run_in(
        Path::new("."),
        &format!("./rekwonuda find {named} 0x21 >/dev/full"),
    );
    assert_eq!(found.status, 2);
    for form in ["", "--csv", "--json"] {
        let script = format!("./rekwonuda table {form} {named} 0x808e >/dev/full");
        assert_eq!(run_in(Path::new("."), &script).status, 2, "{form}");
    }
    let several = run_in(
        Path::new("."),
        &format!("./rekwonuda check {named} {named} >/dev/full"),
    );
    assert_eq!(several.status, 2);
    assert!(several.errors.contains("No space left"));
    assert_eq!(
        run_in(Path::new("."), "./rekwonuda --help >/dev/full").status,
        2
    );
}

#[test]
fn names_are_shown_without_what_would_steer_a_terminal() {
    let folder = folder("odd_names");
    let path = folder.join(OsStr::from_bytes(b"a\x1b[31m\n\xFF.pst"));
    fs::write(&path, sound().image).unwrap();
    let shown = "a\\u{1b}[31m\\n\\xff.pst";
    for run in [
        run(&["info"], &path, &[]),
        run(&["check"], &folder, &[]),
        run(&["check"], &path.with_extension("none"), &[]),
        run(&["node"], &path, &["0x7777777", "-o", "\x1b/x"]),
        words(&["\x1b[31m"]),
    ] {
        let all = format!("{}{}", run.text, run.errors);
        assert!(!all.contains('\x1b'), "{all}");
    }
    assert!(run(&["info"], &path, &[]).text.contains(shown));
    assert!(run(&["check"], &folder, &[]).text.contains(shown));
}

#[test]
fn help_is_short_or_long_and_tells_the_exit_statuses() {
    let [short, long] = ["-h", "--help"].map(|word| words(&[word]));
    for run in [&short, &long] {
        assert_eq!(run.status, 0);
        for status in [
            "0 accepted, or done",
            "1 damaged",
            "2 wrong usage",
            "3 what was asked for is absent",
            "4 not covered",
        ] {
            assert!(run.says(status), "{}", run.text);
        }
    }
    assert!(long.says("a file that changes under a mapping is outside what is proved"));
    assert!(long.says("in the order 0, 3, 4, 1, 2"));
    assert!(short.text.len() < long.text.len());
    let json = words(&["--json", "--help"]);
    assert_eq!((json.status, json.text), (0, long.text));
    for command in ["check", "find", "node", "table", "folders", "map"] {
        let [short, long] = ["-h", "--help"].map(|word| words(&[command, word]));
        assert!(short.text.lines().count() < long.text.lines().count());
        assert!(long.says("3 what was asked for is absent"), "{}", long.text);
    }
}
