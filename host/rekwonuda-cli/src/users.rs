//! Which nodes' data uses a block.

use crate::source::Source;
use crate::walk;
use crate::words::counted;
use rekwonuda::{Block, BlockId, Node, NodeId, Refusal};

/// As many are named of one block.
const MOST_NAMED: usize = 100;
const MOST_SHOWN: usize = 10;

/// The nodes whose data uses a block: how many, and the first of them.
#[derive(Clone, Debug, Default)]
pub struct Users {
    pub count: u64,
    pub first: Vec<NodeId>,
}

impl Users {
    fn add(&mut self, node: NodeId) {
        self.count += 1;
        if self.first.len() < MOST_NAMED {
            self.first.push(node);
        }
    }

    pub fn text(&self) -> String {
        if self.count == 0 {
            return "used by the data of no listed node; it may belong to a subnode".to_string();
        }
        let shown: Vec<String> = self
            .first
            .iter()
            .take(MOST_SHOWN)
            .map(NodeId::to_string)
            .collect();
        let noun = if self.count == 1 { "node" } else { "nodes" };
        let rest = match self.count - shown.len() as u64 {
            0 => String::new(),
            more => format!(" and {} more", counted(more, "node")),
        };
        format!("used by the data of {noun} {}{rest}", shown.join(", "))
    }
}

/// The users of each of some blocks, whose keys ascend, as far as the node tree can be read.
pub fn users(source: &Source, blocks: &[BlockId]) -> Vec<Users> {
    let mut users = vec![Users::default(); blocks.len()];
    for node in walk::nodes(source).flatten() {
        for block in asked(source, &node) {
            if let Ok(at) = blocks.binary_search_by_key(&block.key(), |listed| listed.key()) {
                users[at].add(node.id);
            }
        }
    }
    users
}

/// The blocks that a read of the node's data asks for, each once: its data block, and those that a
/// data tree lists, as far as it can be read.
fn asked(source: &Source, node: &Node) -> Vec<BlockId> {
    let Some(data) = node.data else {
        return Vec::new();
    };
    let mut asked = source.image().data_blocks(data).unwrap_or_default();
    asked.push(data);
    asked.sort_unstable();
    asked.dedup_by_key(|block| block.key());
    asked
}

/// A block that the data of a node asks for and the block tree does not list.
pub fn missing(source: &Source, node: &Node) -> Option<BlockId> {
    asked(source, node).into_iter().find(|block| {
        let found = source.image().find_block(*block);
        found.is_ok_and(|lookup| lookup.entry.is_none())
    })
}

/// A block that the data of a node asks for and that is refused in this way, as it is listed.
pub fn refused(source: &Source, node: &Node, refusal: &Refusal) -> Option<Block> {
    let image = source.image();
    let asked = asked(source, node).into_iter();
    let mut listed = asked.filter_map(|block| image.find_block(block).ok()?.entry);
    listed
        .find(|block| block.offset == refusal.place && image.test_block(block.id) == Err(*refusal))
}

#[cfg(test)]
mod tests {
    use super::*;

    #[test]
    fn users_are_named_and_beyond_ten_counted() {
        let mut users = Users::default();
        assert!(users.text().contains("no listed node"));
        users.add(NodeId(0x21));
        assert_eq!(users.text(), "used by the data of node 0x21");
        users.add(NodeId(0x22));
        assert_eq!(users.text(), "used by the data of nodes 0x21, 0x22");
        (0..150).for_each(|node| users.add(NodeId(node)));
        assert!(users.text().ends_with(", 0x7 and 142 nodes more"));
        assert_eq!((users.count, users.first.len()), (152, MOST_NAMED));
    }
}
