//! The command line on sound and on damaged files: its texts, its JSON and its exit status.

mod check;
mod completions;
mod damaged;
mod editions;
mod end;
mod find;
mod folders;
#[path = "../../../rekwonuda/tests/images/mod.rs"]
mod images;
mod json;
mod keys;
mod lists;
mod made;
mod many;
mod map;
mod node;
mod page;
mod props;
mod readme;
mod runs;
mod screen;
mod spoilt;
mod surroundings;
mod table;
mod terminal;
