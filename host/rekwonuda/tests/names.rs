//! The names of refusals and methods in the C header are those of this crate.

use rekwonuda::{Fault, Method};

const HEADER: &str = include_str!("../../../include/rekwonuda.h");

/// The names of the header that begin so, as Rust writes names, with their numbers.
fn named(beginning: &str) -> Vec<(String, u64)> {
    let lines = HEADER
        .lines()
        .filter_map(|line| line.trim().strip_prefix(beginning));
    let named = lines.map(|line| {
        let (name, number) = line.split_once(" = ").expect("a name has its number");
        let number = number.trim_end_matches(',').parse();
        (camel(name), number.expect("it is a number"))
    });
    named.collect()
}

/// `PAGE_KIND` as `PageKind`.
fn camel(name: &str) -> String {
    let words = name.split('_');
    words
        .map(|word| word[..1].to_string() + &word[1..].to_lowercase())
        .collect()
}

#[test]
fn refusals_have_the_same_names() {
    let faults = (1..100).map(|number| (Fault::from(number), number));
    let faults = faults.filter(|(fault, _)| !matches!(fault, Fault::Unnamed(_)));
    let faults: Vec<_> = faults
        .map(|(fault, number)| (format!("{fault:?}"), number))
        .collect();
    assert_eq!(named("RKW_REFUSED_"), faults);
}

#[test]
fn methods_have_the_same_names() {
    let methods = [Method::None, Method::Permute, Method::Cyclic];
    let methods: Vec<_> = (0..)
        .zip(methods)
        .map(|(number, method)| (format!("{method:?}"), number))
        .collect();
    assert_eq!(named("RKW_METHOD_"), methods);
}
