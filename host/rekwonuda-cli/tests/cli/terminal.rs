//! The command line in a terminal: `script` makes one, and `stty` gives it its width.

use crate::runs::{file, folder, office, run, run_in, PROGRAM};
use crate::screen::Screen;
use model::build::{build, Plan};
use std::fs;
use std::path::{Path, PathBuf};

const WIDTHS: [usize; 7] = [5, 10, 25, 40, 60, 76, 120];

/// What a terminal of that width is sent by a run with these words.
pub fn sent(width: usize, words: &str) -> String {
    let inner = format!("stty cols {width} rows 50; {PROGRAM} {words}");
    let script = format!("TERM=xterm script -qec '{inner}' /dev/null < /dev/null");
    let run = run_in(Path::new("."), &script);
    assert_eq!(run.status, 0, "{}", run.text);
    run.text
}

/// A sound file so large that progress is shown.
fn large(name: &str) -> PathBuf {
    let plan = Plan {
        block_nodes: 5_000,
        most_size: 8_176,
        one_child: true,
        tidy: true,
        ..Plan::default()
    };
    file(name, &build(5, &plan).image)
}

#[test]
fn progress_leaves_nothing_behind_in_any_width() {
    let path = large("large_widths.pst");
    let plain = run(&["check"], &path, &[]).text;
    for width in WIDTHS {
        let sent = sent(width, &format!("check {}", path.display()));
        assert!(sent.contains("test"), "no progress at {width}");
        let mut screens = [Screen::new(width), Screen::new(width)];
        screens[0].show(&sent);
        screens[1].show(&plain.replace('\n', "\r\n"));
        assert_eq!(screens[0].lines(), screens[1].lines(), "{width}");
    }
    fs::remove_file(path).unwrap();
}

#[test]
fn progress_does_not_break_into_json() {
    let path = large("large_json.pst");
    let plain = run(&["check", "--json"], &path, &[]).text;
    let mut screen = Screen::new(60);
    screen.show(&sent(60, &format!("check --json {}", path.display())));
    assert_eq!(screen.lines().concat(), plain.trim_end());
    fs::remove_file(path).unwrap();
}

#[test]
fn progress_over_many_files_leaves_nothing_behind() {
    let folder = folder("many_shown");
    for at in 0..40 {
        fs::copy(office(), folder.join(format!("{at}.pst"))).unwrap();
    }
    for width in [20, 80] {
        let mut screen = Screen::new(width);
        screen.show(&sent(width, &format!("check {}", folder.display())));
        let lines = screen.lines().concat();
        assert_eq!(lines.matches("accepted     ").count(), 40, "{lines}");
        assert!(
            !lines.contains("checking") && lines.contains("40 files"),
            "{lines}"
        );
    }
}

#[test]
fn a_stage_is_told_when_it_ends() {
    let path = large("large_stages.pst");
    let sent = sent(80, &format!("check {}", path.display()));
    let at = |words: &str| {
        sent.find(words)
            .unwrap_or_else(|| panic!("no {words}: {sent}"))
    };
    assert!(at("block tree   accepted") < at("testing blocks"));
    assert!(at("blocks       accepted") < at("reading nodes"));
    fs::remove_file(path).unwrap();
}

#[test]
fn help_keeps_to_the_width_of_the_terminal() {
    let helps = ["--help", "-h", "check --help", "node --help"];
    for words in helps
        .iter()
        .chain(&["table --help", "folders --help", "map --help"])
    {
        for width in [40, 60, 90] {
            let mut screen = Screen::new(1000);
            screen.show(&sent(width, words));
            // clap lays out all but the line of usage.
            let lines = screen.lines().into_iter();
            for line in lines.filter(|line| !line.starts_with("Usage:")) {
                let length = line.chars().count();
                assert!(length <= width, "{words}, {length} in {width}: {line}");
            }
        }
    }
}

#[test]
fn an_account_keeps_to_the_width_of_the_terminal() {
    let path = file("narrow.pst", b"none");
    let words = format!("check {}; true", path.display());
    for line in sent(50, &words)
        .lines()
        .filter(|line| line.starts_with("    "))
    {
        assert!(line.trim_end().chars().count() <= 50, "{line}");
    }
}

#[test]
fn a_table_keeps_to_the_width_of_the_terminal() {
    let words = format!("table {} 0x808e", office().display());
    for width in [40, 100] {
        let mut screen = Screen::new(1000);
        screen.show(&sent(width, &words));
        let lines = screen.lines();
        let table = lines.iter().filter(|line| line.contains("0x2"));
        assert!(table.clone().all(|line| line.chars().count() <= width));
        assert!(table.count() == 11 && lines[0].ends_with('\u{2026}'));
        let told = "lines are cut to the terminal; behind | less -S they are whole";
        assert_eq!(lines.last().map(String::as_str), Some(told));
    }
    let whole = run(&["table"], &office(), &["0x808e"]).text;
    assert!(!whole.contains('\u{2026}') && !whole.contains("cut"));
    let mut screen = Screen::new(1000);
    screen.show(&sent(1000, &words));
    let lines: Vec<&str> = whole.lines().filter(|line| !line.is_empty()).collect();
    assert_eq!(screen.lines(), lines);
}

#[test]
fn data_is_previewed_on_a_terminal_alone() {
    let sent = sent(80, &format!("node {} 0x21", office().display()));
    assert!(
        sent.contains("000000  ") && sent.contains("204 bytes; -o OUT"),
        "{sent}"
    );
}
