//! What is declared here is what `include/rekwonuda.h` declares: each struct's fields in their order,
//! each call's parameters and answer. A linker would let a difference pass.

use rekwonuda_sys::{
    Answer, BlockAnswer, CellAnswer, CellsAnswer, ColumnAnswer, CountAnswer, DataAnswer,
    HeaderAnswer, ItemAnswer, LengthAnswer, NodeAnswer, PropertyAnswer, RowAnswer, SizeAnswer,
    TableAnswer,
};

const HEADER: &str = include_str!("../../../include/rekwonuda.h");
const SOURCE: &str = include_str!("../src/lib.rs");

const STRUCTS: &[(&str, &[&str])] = &[
    ("Answer", Answer::NAMES),
    ("HeaderAnswer", HeaderAnswer::NAMES),
    ("NodeAnswer", NodeAnswer::NAMES),
    ("BlockAnswer", BlockAnswer::NAMES),
    ("SizeAnswer", SizeAnswer::NAMES),
    ("LengthAnswer", LengthAnswer::NAMES),
    ("DataAnswer", DataAnswer::NAMES),
    ("ItemAnswer", ItemAnswer::NAMES),
    ("PropertyAnswer", PropertyAnswer::NAMES),
    ("TableAnswer", TableAnswer::NAMES),
    ("ColumnAnswer", ColumnAnswer::NAMES),
    ("CountAnswer", CountAnswer::NAMES),
    ("CellAnswer", CellAnswer::NAMES),
    ("RowAnswer", RowAnswer::NAMES),
    ("CellsAnswer", CellsAnswer::NAMES),
];

/// `struct rkw_node_answer` as `NodeAnswer`, `uint64_t` as `u64` and so on.
fn rust_type(in_c: &str) -> String {
    match in_c {
        "size_t" => "usize".into(),
        "const uint8_t *" => "*const u8".into(),
        "uint8_t *" => "*mut u8".into(),
        "const uint64_t *" => "*const u64".into(),
        "uint64_t *" => "*mut u64".into(),
        "const char *" => "*const c_char".into(),
        _ => match in_c.strip_prefix("struct rkw_") {
            Some(name) => name.split('_').map(capital).collect(),
            None => in_c.replace("uint", "u").replace("_t", ""),
        },
    }
}

fn capital(word: &str) -> String {
    word[..1].to_uppercase() + &word[1..]
}

/// `uint64_t node` as `node: u64`.
fn rust_parameter(in_c: &str) -> String {
    let name = in_c.rsplit([' ', '*']).next().unwrap_or(in_c);
    let before = in_c.strip_suffix(name).unwrap_or(in_c).trim_end();
    format!("{name}: {}", rust_type(before))
}

/// A line of the header that declares a call, as the line of Rust that does.
fn rust_call(line: &str) -> Option<String> {
    let (before, behind) = line.split_once('(')?;
    let parameters = behind.strip_suffix(");")?;
    let name = before.rsplit([' ', '*']).next()?;
    let answer = before.strip_suffix(name)?.trim_end();
    let parameters = parameters.split(", ").filter(|name| *name != "void");
    let parameters: Vec<_> = parameters.map(rust_parameter).collect();
    let parameters = parameters.join(", ");
    Some(format!("fn {name}({parameters}) -> {};", rust_type(answer)))
}

#[test]
fn calls_are_those_of_the_header() {
    let words: Vec<&str> = SOURCE.split_whitespace().collect();
    let source = words.join(" ").replace("( ", "(").replace(", )", ")");
    let calls: Vec<String> = HEADER.lines().filter_map(rust_call).collect();
    for call in &calls {
        assert!(source.contains(call), "{call}");
    }
    assert_eq!(source.matches("; fn rkw_").count() + 1, calls.len());
}

#[test]
fn structs_are_those_of_the_header() {
    let mut found: Vec<(String, Vec<&str>)> = Vec::new();
    for line in HEADER.lines() {
        if let Some(name) = line
            .strip_suffix(" {")
            .filter(|name| name.starts_with("struct"))
        {
            found.push((rust_type(name), Vec::new()));
        } else if let Some(names) = line.strip_prefix("    uint64_t ") {
            let (_, fields) = found.last_mut().expect("a struct begins before its fields");
            fields.extend(names.trim_end_matches(';').split(", "));
        }
    }
    let in_c = |name: &&'static str| if *name == "type_code" { "type" } else { *name };
    let declared: Vec<(String, Vec<&str>)> = STRUCTS
        .iter()
        .map(|(name, fields)| ((*name).to_string(), fields.iter().map(in_c).collect()))
        .collect();
    assert_eq!(found, declared);
}

#[test]
fn versions_are_those_of_the_crates() {
    let numbers = env!("CARGO_PKG_VERSION").split('.').map(str::parse::<u64>);
    let version = numbers.fold(0, |sum, number| sum * 100 + number.expect("a number"));
    assert_eq!(rekwonuda_sys::version(), version);
    let number = format!("#define RKW_VERSION {version}\n");
    let text = format!(
        "#define RKW_VERSION_TEXT \"{}\"\n",
        env!("CARGO_PKG_VERSION")
    );
    assert!(HEADER.contains(&number) && HEADER.contains(&text));
}
