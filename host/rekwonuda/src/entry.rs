//! What the calls on an image answer. The fields of an answer are 64 bits wide; each is given here in
//! the width that it has in the file.

use crate::{BlockId, Edition, Method, NodeId};
use rekwonuda_sys::{BlockAnswer, HeaderAnswer, NodeAnswer};

/// What the header says.
///
/// ```
/// use rekwonuda::{Edition, Image, Method};
///
/// let bytes = std::fs::read("../../samples/office.pst")?;
/// let header = Image::new(&bytes).header()?;
/// assert_eq!(header.method, Method::Permute);
/// assert_eq!(header.end, 49_152);
/// assert_eq!(header.edition, Edition::Bits64);
/// # Ok::<(), Box<dyn std::error::Error>>(())
/// ```
#[non_exhaustive]
#[derive(Clone, Copy, Debug, PartialEq, Eq)]
pub struct Header {
    /// How block data is encoded.
    pub method: Method,
    /// The root page of the node tree.
    pub nodes: PageReference,
    /// The root page of the block tree.
    pub blocks: PageReference,
    /// Where the file ends: each page and each block ends there or before. At most the length of the
    /// image; [`Image::hanging`](crate::Image::hanging) has what follows.
    pub end: u64,
    /// The edition of the file.
    pub edition: Edition,
}

/// The number of a page and where it stands.
///
/// ```
/// use rekwonuda::Image;
///
/// let bytes = std::fs::read("../../samples/mini.img")?;
/// let root = Image::new(&bytes).header()?.nodes;
/// assert_eq!((root.number, root.offset), (131, 27_136));
/// # Ok::<(), Box<dyn std::error::Error>>(())
/// ```
#[derive(Clone, Copy, Debug, PartialEq, Eq)]
pub struct PageReference {
    /// Its number.
    pub number: u64,
    /// Its offset in the image.
    pub offset: u64,
}

/// What a lookup found, and how many pages it read.
///
/// ```
/// use rekwonuda::{Image, NodeId};
///
/// let bytes = std::fs::read("../../samples/office.pst")?;
/// let lookup = Image::new(&bytes).find_node(NodeId(7))?;
/// assert!(lookup.entry.is_none());
/// assert_eq!(lookup.pages, 1);
/// # Ok::<(), Box<dyn std::error::Error>>(())
/// ```
#[derive(Clone, Copy, Debug, PartialEq, Eq)]
pub struct Lookup<T> {
    /// The entry, or `None` where it is absent.
    pub entry: Option<T>,
    /// How many pages were read, also where the entry is absent.
    pub pages: u64,
}

/// A node as the node tree lists it.
///
/// ```
/// use rekwonuda::{Image, NodeId};
///
/// let bytes = std::fs::read("../../samples/office.pst")?;
/// let inbox = Image::new(&bytes).find_node(NodeId(0x8082))?.entry.expect("it is there");
/// assert_eq!(inbox.parent, NodeId(0x8022));
/// assert!(inbox.data.is_some() && inbox.subnodes.is_none());
/// # Ok::<(), Box<dyn std::error::Error>>(())
/// ```
#[non_exhaustive]
#[derive(Clone, Copy, Debug, PartialEq, Eq)]
pub struct Node {
    /// Its number.
    pub id: NodeId,
    /// Its data block, or the root block of its data tree; `None` where the number stored is 0, or 1,
    /// which counts as 0.
    pub data: Option<BlockId>,
    /// Its subnode block.
    pub subnodes: Option<BlockId>,
    /// Its parent node as stored: not tested, so that there need be none.
    pub parent: NodeId,
}

/// A block as the block tree lists it.
///
/// ```
/// use rekwonuda::Image;
///
/// let bytes = std::fs::read("../../samples/office.pst")?;
/// let image = Image::new(&bytes);
/// let block = image.blocks().next().expect("it has blocks")?;
/// assert_eq!(image.test_block(block.id)?, usize::from(block.size));
/// # Ok::<(), Box<dyn std::error::Error>>(())
/// ```
#[non_exhaustive]
#[derive(Clone, Copy, Debug, PartialEq, Eq)]
pub struct Block {
    /// Its number as stored.
    pub id: BlockId,
    /// Where it starts in the image.
    pub offset: u64,
    /// How many bytes it holds.
    pub size: u16,
    /// Its reference count as stored, which is not tested.
    pub references: u16,
}

impl Node {
    /// Whether its data is a data tree: several blocks, named by an internal one.
    #[must_use]
    pub fn has_data_tree(&self) -> bool {
        self.data.is_some_and(BlockId::is_internal)
    }
}

impl Header {
    pub(crate) fn of(answer: &HeaderAnswer) -> Self {
        Self {
            method: Method::of_header(answer.method),
            nodes: PageReference {
                number: answer.nodes_number,
                offset: answer.nodes_offset,
            },
            blocks: PageReference {
                number: answer.blocks_number,
                offset: answer.blocks_offset,
            },
            end: answer.end,
            edition: Edition::of_header(answer.edition),
        }
    }
}

impl Lookup<Node> {
    pub(crate) fn of(answer: &NodeAnswer) -> Self {
        let node = Node {
            id: NodeId(answer.node as u32),
            data: BlockId::of_data(answer.data),
            subnodes: BlockId::unless_zero(answer.subnode),
            parent: NodeId(answer.parent as u32),
        };
        Self {
            entry: (answer.found == 1).then_some(node),
            pages: answer.pages,
        }
    }
}

impl Lookup<Block> {
    pub(crate) fn of(answer: &BlockAnswer) -> Self {
        let block = Block {
            id: BlockId(answer.block),
            offset: answer.offset,
            size: answer.size as u16,
            references: answer.references as u16,
        };
        Self {
            entry: (answer.found == 1).then_some(block),
            pages: answer.pages,
        }
    }
}
