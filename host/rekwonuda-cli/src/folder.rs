//! A folder as `folders` shows it.

use crate::contexts::named;
use crate::outcome::Failure;
use crate::troubles::Trouble;
use crate::values::Text;
use crate::words::{counted, cut, hex, node_type};
use rekwonuda::NodeId;
use serde_json::{json, Value};

pub const HEAD: &str = "      node  messages  unread  folder";

/// How wide what stands before the folder's name is.
const BEFORE: usize = 30;

/// So many levels are indented; deeper ones are numbered, so that no line grows without end.
const DEEPEST: usize = 40;

/// The widest that a name gets on a screen.
const WIDEST: usize = 60;

/// So many folders that stand elsewhere are named in JSON, and so many on a screen.
const MOST_NAMED: usize = 100;
const MOST_SHOWN: usize = 10;

/// The types of nodes, by the low five bits of their numbers.
const TYPE: u32 = 0x1F;
const FOLDER: u32 = 0x02;
const SEARCH_FOLDER: u32 = 0x03;
const HIERARCHY_TABLE: u32 = 0x0D;
const CONTENTS_TABLE: u32 = 0x0E;

pub struct Folder {
    pub id: NodeId,
    /// The folder in whose hierarchy table it stands, and how many there are above it.
    parent: Option<NodeId>,
    pub depth: usize,
    pub stated: Stated,
    /// How many rows its contents table has.
    pub messages: Option<u32>,
    /// The folder whose hierarchy table is the same one.
    pub same_table: Option<NodeId>,
    /// Folders in its hierarchy table that stand elsewhere in the tree: how many, and the first.
    repeat_count: u64,
    repeats: Vec<NodeId>,
    pub troubles: Vec<Trouble>,
}

/// What is stated of a folder where it is listed.
#[derive(Default)]
pub struct Stated {
    pub name: Option<Text>,
    pub messages: Option<u32>,
    pub unread: Option<u32>,
}

impl Folder {
    pub fn new(id: NodeId, parent: Option<NodeId>, depth: usize) -> Folder {
        Folder {
            id,
            parent,
            depth,
            stated: Stated::default(),
            messages: None,
            same_table: None,
            repeat_count: 0,
            repeats: Vec::new(),
            troubles: Vec::new(),
        }
    }

    pub fn hierarchy_table(&self) -> Option<NodeId> {
        self.own_table(HIERARCHY_TABLE)
    }

    pub fn contents_table(&self) -> Option<NodeId> {
        self.own_table(CONTENTS_TABLE)
    }

    /// The table of that type, which folders have, and search folders have not.
    fn own_table(&self, table: u32) -> Option<NodeId> {
        let number = self.id.0;
        (number & TYPE == FOLDER).then_some(NodeId(number & !TYPE | table))
    }

    /// What is listed as a folder may be something else.
    pub fn is_one(&self) -> Result<(), Failure> {
        match self.id.0 & TYPE {
            FOLDER | SEARCH_FOLDER => Ok(()),
            _ => Err(Failure::NotCovered(format!(
                "{} is listed as a folder, and is none",
                named(self.id)
            ))),
        }
    }

    pub fn add_repeat(&mut self, id: NodeId) {
        self.repeat_count += 1;
        if self.repeats.len() < MOST_NAMED {
            self.repeats.push(id);
        }
    }

    pub fn facts(&self) -> Value {
        let mut facts = json!({
            "node": self.id.0,
            "parent": self.parent.map(|parent| parent.0),
            "depth": self.depth,
            "type": node_type(self.id),
            "name": self.stated.name.as_ref().map(|name| &name.plain),
        });
        if let Some(bytes) = self.unknown_name() {
            facts["name_hex"] = hex(bytes).into();
        }
        let numbers = [
            ("messages", self.messages),
            ("stated_messages", self.stated.messages),
            ("stated_unread", self.stated.unread),
            ("same_table", self.same_table.map(|other| other.0)),
        ];
        for (field, number) in numbers {
            if let Some(number) = number {
                facts[field] = number.into();
            }
        }
        let repeats = self.repeats.iter().map(|id| id.0);
        facts["repeats"] = repeats.collect::<Vec<u32>>().into();
        facts["repeat_count"] = self.repeat_count.into();
        let troubles = self.troubles.iter().map(Trouble::facts);
        facts["troubles"] = troubles.collect::<Vec<Value>>().into();
        facts
    }

    /// All bytes of its name, where it is not known what some of them stand for.
    pub fn unknown_name(&self) -> Option<&[u8]> {
        self.stated.name.as_ref()?.unknown.as_deref()
    }

    /// The line of the folder, and one for each thing to know about it.
    pub fn lines(&self) -> Vec<String> {
        let number =
            |number: Option<u32>| number.map_or("-".to_string(), |number| number.to_string());
        let indent = "  ".repeat(self.depth.min(DEEPEST));
        let mut lines = vec![format!(
            "{:>10}  {:>8}  {:>6}  {indent}{}",
            self.id,
            number(self.messages),
            number(self.stated.unread),
            self.shown_name()
        )];
        let notes = self.notes().into_iter();
        lines.extend(notes.map(|note| format!("{:BEFORE$}{indent}  ! {note}", "")));
        lines
    }

    fn shown_name(&self) -> String {
        let name = self.stated.name.as_ref().map(|name| name.shown.as_str());
        let name = match name {
            None if self.troubles.iter().any(Trouble::is_of_name) => "(name not read)".to_string(),
            None | Some("") => "(no name)".to_string(),
            Some(name) => cut(name, WIDEST),
        };
        let level = match self.depth > DEEPEST {
            true => format!("(level {}) ", self.depth),
            false => String::new(),
        };
        let kind = match self.id.0 & TYPE {
            SEARCH_FOLDER => " (search folder)",
            _ => "",
        };
        format!("{level}{name}{kind}")
    }

    fn notes(&self) -> Vec<String> {
        let mut notes: Vec<String> = self
            .troubles
            .iter()
            .map(|trouble| trouble.message.clone())
            .collect();
        if let Some(stated) = self.stated.messages {
            if self.contents_table().is_some() && self.messages != Some(stated) {
                notes.push(format!(
                    "said to have {}",
                    counted(stated.into(), "message")
                ));
            }
        }
        if let Some(other) = self.same_table {
            notes.push(format!(
                "its hierarchy table is that of folder {other}, where the rows are shown"
            ));
        }
        if self.repeat_count > 0 {
            notes.push(format!(
                "also lists {}; a folder is shown once",
                self.shown_repeats()
            ));
        }
        notes
    }

    fn shown_repeats(&self) -> String {
        let shown = self.repeats.iter().take(MOST_SHOWN);
        let shown: Vec<String> = shown.map(NodeId::to_string).collect();
        match self.repeat_count - shown.len() as u64 {
            0 => shown.join(", "),
            more => format!("{} and {} more", shown.join(", "), counted(more, "folder")),
        }
    }
}
