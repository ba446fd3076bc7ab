//! The crates `images` and `contexts` and the samples hold what the builder and the model make today, byte
//! for byte.

use model::build::office::office;
use model::edition::Edition;
use model::{contexts, report};
use std::collections::{BTreeMap, BTreeSet};
use std::fs;
use std::path::PathBuf;

fn at_root(path: &str) -> PathBuf {
    PathBuf::from(env!("CARGO_MANIFEST_DIR"))
        .join("../..")
        .join(path)
}

/// The files of a folder are those that were made, no more and no fewer.
fn assert_held(folder: &str, made: Vec<(String, Vec<u8>)>) {
    let held: BTreeMap<_, _> = fs::read_dir(at_root(folder))
        .expect("the folder")
        .map(|entry| {
            let entry = entry.expect("an entry of the folder");
            let name = entry.file_name().into_string().expect("a plain name");
            let bytes = fs::read(entry.path()).expect("a file");
            (name, bytes)
        })
        .collect();
    let made: BTreeMap<_, _> = made.into_iter().collect();
    let names = |files: &BTreeMap<String, Vec<u8>>| files.keys().cloned().collect::<Vec<_>>();
    assert_eq!(names(&held), names(&made));
    for (name, bytes) in &made {
        assert!(
            held[name] == *bytes,
            "{name} is not as the builder makes it"
        );
    }
}

fn assert_report_held(file: &str, made: &str) {
    let held = fs::read_to_string(at_root(file)).expect("the report");
    for (at, (held, made)) in held.lines().zip(made.lines()).enumerate() {
        assert_eq!(held, made, "line {}", at + 1);
    }
    assert!(held == made, "the report ends elsewhere");
}

#[test]
fn images_unchanged() {
    assert_held("crates/images/data", report::files());
    assert_report_held("crates/images/stdout", &report::report());
}

#[test]
fn contexts_unchanged() {
    assert_held("crates/contexts/data", contexts::files());
    assert_report_held("crates/contexts/stdout", &contexts::report());
}

#[test]
fn samples_unchanged() {
    for (edition, name) in [
        (Edition::Bits64, "samples/office.pst"),
        (Edition::Bits32, "samples/small-office.pst"),
    ] {
        let held = fs::read(at_root(name)).expect("the sample");
        let made = office(edition).image;
        assert!(held == made, "{name} is not as the builder makes it");
    }
}

fn refusals_shown(report: &str) -> BTreeSet<u64> {
    let refused = |number: &u64| report.contains(&format!("refused {number} at"));
    (0..=24).filter(refused).collect()
}

#[test]
fn reports_show_every_refusal() {
    assert_eq!(refusals_shown(&report::report()), (1..=21).collect());
    let of_tables = [17, 18, 19, 23].into();
    assert_eq!(refusals_shown(&contexts::report()), of_tables);
}

/// Each damaged table has its refusal in the report, and a sound one none but that of a short area.
#[test]
fn contexts_by_name() {
    let report = contexts::report();
    let named = |line: &&str| line.contains(" bytes, rows ");
    for part in report
        .split_inclusive('\n')
        .collect::<Vec<_>>()
        .chunk_by(|_, line| !named(line))
    {
        let name = part[0].split(':').next().expect("a name");
        // The row index of the other edition is refused in any case.
        let other = if name.contains("bits32") {
            "find_row "
        } else {
            "find_row32 "
        };
        let own = part.iter().filter(|line| !line.starts_with(other));
        let shown = refusals_shown(&own.copied().collect::<String>());
        let expected = match name.split_once("-refusal-") {
            Some((_, rest)) => rest.split('-').next().and_then(|word| word.parse().ok()),
            None => None,
        };
        let found: Vec<_> = shown.into_iter().filter(|&number| number != 17).collect();
        assert_eq!(found, Vec::from_iter(expected), "{name}");
    }
}
