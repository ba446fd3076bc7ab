use crate::account::Spot;
use crate::outcome::{At, Failure, Outcome};
use crate::output::Output;
use crate::source::Source;
use crate::words::node_type;
use rekwonuda::{Block, BlockId, Node, NodeId};
use serde_json::{json, Value};

/// Lists all nodes.
pub fn nodes(source: &Source, out: &mut Output<'_>) -> Result<Outcome, Failure> {
    out.begin_list("nodes")?;
    let mut table = Table::new(node_head());
    for node in source.image().nodes() {
        let node = node.at(Spot::NodeTree)?;
        out.entry(&node_facts(&node))?;
        table.row(&node_row(&node), out)?;
    }
    table.end(out)
}

/// Lists all blocks.
pub fn blocks(source: &Source, out: &mut Output<'_>) -> Result<Outcome, Failure> {
    let head = format!(
        "{:>18}  {:<8}  {:>18}  {:>6}  {:>10}",
        "block", "kind", "offset", "size", "references"
    );
    out.begin_list("blocks")?;
    let mut table = Table::new(head);
    for block in source.image().blocks() {
        let block = block.at(Spot::BlockTree)?;
        out.entry(&block_facts(&block))?;
        table.row(&block_row(&block), out)?;
    }
    table.end(out)
}

/// A table whose head comes with its first row: what is refused before that has none.
pub struct Table {
    head: Option<String>,
}

impl Table {
    pub fn new(head: String) -> Table {
        Table { head: Some(head) }
    }

    pub fn row(&mut self, row: &str, out: &mut Output<'_>) -> Result<(), Failure> {
        self.begin(out)?;
        out.row(row)
    }

    /// Ends a table that is whole, and may be empty.
    pub fn end(mut self, out: &mut Output<'_>) -> Result<Outcome, Failure> {
        self.begin(out)?;
        out.end_list()?;
        Ok(Outcome::Done)
    }

    fn begin(&mut self, out: &mut Output<'_>) -> Result<(), Failure> {
        match self.head.take() {
            Some(head) => out.row(head),
            None => Ok(()),
        }
    }
}

pub fn node_head() -> String {
    format!(
        "{:>10}  {:<28}{:>10}  {:>18}  {:>18}",
        "node", "type", "parent", "data", "subnode"
    )
}

pub fn node_row(node: &Node) -> String {
    let block = |block: Option<BlockId>| block.map_or("-".to_string(), |block| block.to_string());
    let parent = match node.parent {
        NodeId(0) => "-".to_string(),
        parent => parent.to_string(),
    };
    format!(
        "{:>10}  {:<28}{parent:>10}  {:>18}  {:>18}",
        node.id,
        node_type(node.id),
        block(node.data),
        block(node.subnodes)
    )
}

pub fn node_facts(node: &Node) -> Value {
    let block = |block: Option<BlockId>| block.map(|block| block.0.to_string());
    json!({
        "node": node.id.0,
        "type": node_type(node.id),
        "parent": node.parent.0,
        "data": block(node.data),
        "subnode": block(node.subnodes),
    })
}

fn block_row(block: &Block) -> String {
    format!(
        "{:>18}  {:<8}  {:>#18x}  {:>6}  {:>10}",
        block.id,
        kind(block.id),
        block.offset,
        block.size,
        block.references
    )
}

fn block_facts(block: &Block) -> Value {
    json!({
        "block": block.id.0.to_string(),
        "kind": kind(block.id),
        "offset": block.offset.to_string(),
        "size": block.size,
        "references": block.references,
    })
}

pub fn kind(block: BlockId) -> &'static str {
    match block.is_internal() {
        true => "internal",
        false => "data",
    }
}
