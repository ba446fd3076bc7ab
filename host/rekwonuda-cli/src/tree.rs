use crate::account::Spot;
use crate::source::Source;
use crate::walk;
use rekwonuda::{BlockId, NodeId, Refusal};

/// The two trees of a file, as far as they are alike.
#[derive(Clone, Copy, Debug)]
pub enum Tree {
    Nodes,
    Blocks,
}

/// How many entries were met, and the number of the first.
#[derive(Default)]
pub struct Met {
    first: Option<u64>,
    pub entries: u64,
}

impl Met {
    pub fn add(&mut self, number: u64) {
        self.first = self.first.or(Some(number));
        self.entries += 1;
    }
}

impl Tree {
    pub fn noun(self) -> &'static str {
        match self {
            Tree::Nodes => "node",
            Tree::Blocks => "block",
        }
    }

    pub fn spot(self) -> Spot {
        match self {
            Tree::Nodes => Spot::NodeTree,
            Tree::Blocks => Spot::BlockTree,
        }
    }

    pub fn check(self, source: &Source) -> Result<(), Refusal> {
        match self {
            Tree::Nodes => source.image().check_nodes(),
            Tree::Blocks => source.image().check_blocks(),
        }
    }

    /// The numbers of all entries, and each page that is refused.
    pub fn numbers(self, source: &Source) -> Box<dyn Iterator<Item = Result<u64, Refusal>> + '_> {
        match self {
            Tree::Nodes => Box::new(walk::nodes(source).map(|node| Ok(node?.id.0.into()))),
            Tree::Blocks => Box::new(walk::blocks(source).map(|block| Ok(block?.id.0))),
        }
    }

    /// The level of the root: an entry that is there has a path from the root to a leaf, one page
    /// for each level; and a tree without entries is one page.
    pub fn level(self, source: &Source, met: &Met) -> Result<u64, Refusal> {
        let first = met.first.unwrap_or(0);
        let pages = match self {
            Tree::Nodes => source.image().find_node(NodeId(first as u32))?.pages,
            Tree::Blocks => source.image().find_block(BlockId(first))?.pages,
        };
        Ok(pages - 1)
    }
}
