use crate::{Block, BlockId, Image, Node, NodeId, Refusal};
use std::iter::FusedIterator;

/// All nodes of an image, from [`Image::nodes`]. A refusal comes last.
///
/// ```
/// use rekwonuda::{Image, Node, Refusal};
///
/// let bytes = std::fs::read("../../samples/office.pst")?;
/// let nodes: Result<Vec<Node>, Refusal> = Image::new(&bytes).nodes().collect();
/// assert_eq!(nodes?.len(), 60);
/// # Ok::<(), Box<dyn std::error::Error>>(())
/// ```
#[derive(Clone, Debug)]
#[must_use = "an iterator does nothing until it is gone through"]
pub struct Nodes<'a> {
    image: Image<'a>,
    from: Option<NodeId>,
}

impl<'a> Nodes<'a> {
    pub(crate) fn new(image: Image<'a>) -> Self {
        Self {
            image,
            from: Some(NodeId(0)),
        }
    }
}

impl Iterator for Nodes<'_> {
    type Item = Result<Node, Refusal>;

    fn next(&mut self) -> Option<Self::Item> {
        let found = self.image.next_node(self.from.take()?);
        let entry = found.map(|lookup| lookup.entry).transpose()?;
        if let Ok(node) = &entry {
            self.from = node.id.0.checked_add(1).map(NodeId);
        }
        Some(entry)
    }
}

impl FusedIterator for Nodes<'_> {}

/// All blocks of an image, from [`Image::blocks`]. A refusal comes last.
///
/// ```
/// use rekwonuda::Image;
///
/// let bytes = std::fs::read("../../samples/office.pst")?;
/// let image = Image::new(&bytes);
/// for block in image.blocks() {
///     image.test_block(block?.id)?;
/// }
/// # Ok::<(), Box<dyn std::error::Error>>(())
/// ```
#[derive(Clone, Debug)]
#[must_use = "an iterator does nothing until it is gone through"]
pub struct Blocks<'a> {
    image: Image<'a>,
    from: Option<BlockId>,
}

impl<'a> Blocks<'a> {
    pub(crate) fn new(image: Image<'a>) -> Self {
        Self {
            image,
            from: Some(BlockId(0)),
        }
    }
}

impl Iterator for Blocks<'_> {
    type Item = Result<Block, Refusal>;

    fn next(&mut self) -> Option<Self::Item> {
        let found = self.image.next_block(self.from.take()?);
        let entry = found.map(|lookup| lookup.entry).transpose()?;
        if let Ok(block) = &entry {
            self.from = block.id.0.checked_add(1).map(BlockId);
        }
        Some(entry)
    }
}

impl FusedIterator for Blocks<'_> {}
