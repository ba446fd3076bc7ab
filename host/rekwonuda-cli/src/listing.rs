//! A hierarchy table, row by row.

use crate::code_pages::CodePage;
use crate::contexts::{named, Context};
use crate::folder::Stated;
use crate::outcome::{At, Failure};
use crate::values::{text_of, Text, TEXT, TEXT_8};
use rekwonuda::{Cell, Node, NodeId, Table, Tag};

/// The name of a folder; tables of 32-bit files have it as 8-bit text.
const NAMES: [Tag; 2] = [Tag::new(0x3001, TEXT), Tag::new(0x3001, TEXT_8)];
const MESSAGES: Tag = Tag::new(0x3602, 3);
const UNREAD: Tag = Tag::new(0x3603, 3);

/// The hierarchy table in the data of a node, which the library has accepted.
pub struct Listing {
    pub node: Node,
    data: Vec<u8>,
}

impl Listing {
    pub fn new(node: Node, data: Vec<u8>) -> Listing {
        Listing { node, data }
    }

    fn table(&self) -> Table<'_> {
        Table::new(&self.data)
    }

    /// The folder that a row is about.
    pub fn folder(&self, row: u32) -> Option<NodeId> {
        self.number(row, Tag::ROW_ID).map(NodeId)
    }

    /// What a row states, and whether its name can be read.
    pub fn stated(&self, row: u32, page: Option<CodePage>) -> (Stated, Result<(), Failure>) {
        let (name, read) = match self.name(row, page) {
            Ok(name) => (name, Ok(())),
            Err(failure) => (None, Err(failure)),
        };
        let stated = Stated {
            name,
            messages: self.number(row, MESSAGES),
            unread: self.number(row, UNREAD),
        };
        (stated, read)
    }

    fn name(&self, row: u32, page: Option<CodePage>) -> Result<Option<Text>, Failure> {
        let spot = || Context::Table.spot(self.node, &self.data);
        for tag in NAMES {
            match self.table().cell(row, tag).at(spot())? {
                Some(Cell::Item(item)) => {
                    let bytes = self.table().heap().item(item).at(spot())?;
                    return Ok(text_of(tag.type_code(), bytes, page));
                }
                Some(Cell::Empty) => return Ok(Some(Text::default())),
                Some(Cell::Subnode(subnode)) => {
                    return Err(Failure::NotCovered(format!(
                        "the name in row {row} (counted from 0) of {} stands in subnode {subnode}: \
                         subnodes are not read",
                        named(self.node.id)
                    )))
                }
                _ => {}
            }
        }
        Ok(None)
    }

    /// A number of four bytes. The column may have eight, but neither ids nor counts have more.
    fn number(&self, row: u32, tag: Tag) -> Option<u32> {
        match self.table().cell(row, tag) {
            Ok(Some(Cell::Number(number))) => u32::try_from(number).ok(),
            _ => None,
        }
    }
}
