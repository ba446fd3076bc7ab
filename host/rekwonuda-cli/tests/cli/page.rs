//! docs/JSON.md as a test reads it.

use crate::runs::{repository, Run};
use serde_json::Value;
use std::cell::RefCell;
use std::collections::{BTreeMap, BTreeSet};
use std::fs;

/// The largest number that JavaScript and jq hold exactly, with all below it.
const SAFE: u64 = 1 << 53;

/// The tables of the page: for each heading its fields, and for each field what its value is and when
/// it is there.
pub struct Shapes {
    tables: BTreeMap<String, Vec<Field>>,
    /// The fields that some answer had, each with its heading.
    met: RefCell<BTreeSet<(String, String)>>,
}

struct Field {
    name: String,
    value: String,
    always: bool,
}

pub fn text() -> String {
    fs::read_to_string(repository("docs/JSON.md")).unwrap()
}

impl Shapes {
    pub fn read() -> Shapes {
        let mut tables: BTreeMap<_, Vec<_>> = BTreeMap::new();
        let mut heading = String::new();
        for line in text().lines() {
            if let Some(name) = line.strip_prefix("## ").or(line.strip_prefix("### ")) {
                heading = name.to_string();
            } else if line.starts_with("| `") {
                let cells: Vec<_> = line.trim_matches('|').split('|').map(str::trim).collect();
                tables.entry(heading.clone()).or_default().push(Field {
                    name: cells[0].trim_matches('`').to_string(),
                    value: cells[1].to_string(),
                    always: cells[2].starts_with("always"),
                });
            }
        }
        let met = RefCell::default();
        Shapes { tables, met }
    }

    /// Holds every line of a run, the last of which says the exit status.
    pub fn hold_run(&self, run: &Run) -> Value {
        assert_eq!(run.errors, "");
        let read = |line: &str| serde_json::from_str(line).expect("each line is an object");
        let lines: Vec<Value> = run.text.lines().map(read).collect();
        for answer in &lines {
            self.hold_answer(answer);
        }
        let last = lines.last().expect("there is an answer").clone();
        assert_eq!(last["status"], run.status);
        last
    }

    /// Holds an answer to the table of every answer and to that of its command.
    fn hold_answer(&self, answer: &Value) {
        let mut headings = vec!["Every answer"];
        headings.extend(answer["command"].as_str());
        self.hold_fields(&headings, answer);
    }

    fn hold_fields(&self, headings: &[&str], object: &Value) {
        let object = object.as_object().expect("an object");
        let mut told = BTreeSet::new();
        for heading in headings {
            for field in &self.tables[*heading] {
                told.insert(&field.name);
                match object.get(&field.name) {
                    Some(found) => {
                        let met = (heading.to_string(), field.name.clone());
                        self.met.borrow_mut().insert(met);
                        self.hold(&field.value, found);
                    }
                    None => assert!(!field.always, "no {} in {object:?}", field.name),
                }
            }
        }
        let untold: Vec<_> = object.keys().filter(|name| !told.contains(name)).collect();
        assert!(untold.is_empty(), "the page does not tell of {untold:?}");
    }

    /// Holds a value to what a table calls it.
    fn hold(&self, told: &str, value: &Value) {
        if let Some(told) = told.strip_suffix(" or null") {
            if !value.is_null() {
                self.hold(told.trim_end_matches(';'), value);
            }
        } else if let Some(told) = told.strip_prefix("list of ") {
            for entry in value.as_array().expect("a list") {
                self.hold(told, entry);
            }
        } else if let Some(words) = told.strip_prefix("one of ") {
            let mut words = words.split(", ");
            assert!(words.any(|word| value == word), "{value} is not {told}");
        } else if self.tables.contains_key(told) {
            self.hold_fields(&[told], value);
        } else {
            assert!(is_plain(told, value), "{value} is not {told}");
        }
    }

    /// Every field that the page tells of was in some answer.
    pub fn all_were_met(&self) {
        let met = self.met.borrow();
        for (heading, fields) in &self.tables {
            for field in fields {
                let name = &field.name;
                let met = met.contains(&(heading.clone(), name.clone()));
                assert!(met, "no answer had {name} of {heading}");
            }
        }
    }
}

fn is_plain(told: &str, value: &Value) -> bool {
    let text = value.as_str().unwrap_or("?");
    let is_hex = |digit: u8| digit.is_ascii_digit() || (b'a'..=b'f').contains(&digit);
    match told {
        "number" => value.as_u64().is_some_and(|number| number <= SAFE),
        "text" => value.is_string(),
        "true" => value == true,
        "true or false" => value.is_boolean(),
        "digits" => text
            .parse::<u64>()
            .is_ok_and(|number| number.to_string() == text),
        "hex" => text.len().is_multiple_of(2) && text.bytes().all(is_hex),
        _ => panic!("the page calls a value {told}"),
    }
}
