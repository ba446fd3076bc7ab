//! The heaps in the data of nodes that the commands read: properties and tables, each on one block.

use crate::account::Spot;
use crate::node::{absent, read};
use crate::outcome::{At, Failure};
use crate::source::Source;
use crate::words::{counted, node_type, spaced_hex};
use rekwonuda::{Heap, Node, NodeId};

/// The third byte of a heap; the fourth is its client kind.
const HEAP_MARK: u8 = 0xEC;

/// What a heap is to hold.
#[derive(Clone, Copy, Debug, PartialEq, Eq)]
pub enum Context {
    Properties,
    Table,
}

impl Context {
    fn client_kind(self) -> u8 {
        match self {
            Context::Properties => Heap::PROPERTIES,
            Context::Table => Heap::TABLE,
        }
    }

    fn noun(self) -> &'static str {
        match self {
            Context::Properties => "property heap",
            Context::Table => "table",
        }
    }

    /// What stands in a heap of its kind.
    fn content(self) -> &'static str {
        match self {
            Context::Properties => "properties stand",
            Context::Table => "a table stands",
        }
    }

    /// Where in the file such a heap of that node is, with the length of its data.
    pub fn spot(self, node: Node, data: &[u8]) -> Spot {
        match self {
            Context::Properties => Spot::Heap(node, data.len()),
            Context::Table => Spot::Table(node, data.len()),
        }
    }

    /// The data of a node, which is such a heap on one block. Which it is stands in the data tree and in
    /// the head of the data; whether it is sound, the library says.
    pub fn read(self, source: &Source, number: u32) -> Result<(Node, Vec<u8>), Failure> {
        let (node, data) = read(source, number)?;
        match self.why_not(&data, count_blocks(source, &node)?) {
            None => Ok((node, data)),
            Some(what) => Err(not_covered(&node, &what)),
        }
    }

    /// The same for one of many nodes, whose data is not read where it takes several blocks: many nodes
    /// may name one long data tree.
    pub fn read_short(self, source: &Source, number: u32) -> Result<(Node, Vec<u8>), Failure> {
        let id = NodeId(number);
        let found = source.image().find_node(id).at(Spot::NodeTree)?;
        let node = found.entry.ok_or_else(|| absent(id))?;
        match count_blocks(source, &node)? {
            0 | 1 => self.read(source, number),
            several => {
                let noun = self.noun();
                let blocks = counted(several, "block");
                let what = format!("has {blocks} of data, and a {noun} of several is not covered");
                Err(not_covered(&node, &what))
            }
        }
    }

    /// Why the data is no such heap on one block.
    fn why_not(self, data: &[u8], blocks: u64) -> Option<String> {
        let noun = self.noun();
        let bytes = counted(data.len() as u64, "byte");
        let held = format!("{bytes} in {}", counted(blocks, "block"));
        Some(match (data.get(2), data.get(3)) {
            (Some(&HEAP_MARK), Some(kind)) if *kind == self.client_kind() => match blocks {
                1 => return None,
                _ => format!("is a {noun} of several blocks, which is not covered: {held}"),
            },
            (Some(&HEAP_MARK), Some(kind)) => format!(
                "is no {noun}: its data, {held}, begins as a heap of client kind {kind:#04x} does \
                 ({}), and {} in one of kind {:#04x}",
                client_kind(*kind),
                self.content(),
                self.client_kind()
            ),
            (Some(_), _) => format!(
                "is no {noun}: its data, {held}, begins with {}, and the third byte of a heap is ec",
                spaced_hex(&data[..data.len().min(4)])
            ),
            _ if blocks == 0 => format!("is no {noun}: it has no data"),
            _ => format!("is no {noun}: its data is {held}, and the head of a heap is 12 bytes"),
        })
    }
}

/// "node 0x802d (hierarchy table)".
pub fn named(node: NodeId) -> String {
    format!("node {node} ({})", node_type(node))
}

fn not_covered(node: &Node, what: &str) -> Failure {
    Failure::NotCovered(format!("{} {what}", named(node.id)))
}

fn count_blocks(source: &Source, node: &Node) -> Result<u64, Failure> {
    let blocks = node.data.map(|data| source.image().data_blocks(data));
    let blocks = blocks.transpose().at(Spot::Data(*node))?;
    Ok(blocks.map_or(0, |blocks| blocks.len() as u64))
}

fn client_kind(kind: u8) -> &'static str {
    match kind {
        Heap::TABLE => "a table, which the command `table` shows",
        Heap::PROPERTIES => "properties, which the command `props` lists",
        _ => "not known here",
    }
}
