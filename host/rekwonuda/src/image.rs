use crate::refusal::answered;
use crate::{
    Block, BlockId, Blocks, Edition, Fault, Header, Lookup, Node, NodeId, Nodes, Refusal,
    LARGEST_BLOCK, SHORTEST_IMAGE,
};
use rekwonuda_sys::{self as sys, NodeAnswer};

/// The bytes of a .pst file, from its first.
///
/// Any bytes will do. Every call checks all that its answer rests on, so that none needs another to
/// have been made before it.
///
/// ```
/// use rekwonuda::{Image, NodeId};
///
/// let bytes = std::fs::read("../../samples/office.pst")?;
/// let image = Image::new(&bytes);
/// image.check_nodes()?;
/// image.check_blocks()?;
/// let note = image.node_data(NodeId(0x20_0284))?.expect("it is there");
/// assert!(note.starts_with(b"Line 1 of the long note."));
/// # Ok::<(), Box<dyn std::error::Error>>(())
/// ```
#[derive(Clone, Copy, Debug)]
pub struct Image<'a>(&'a [u8]);

impl<'a> Image<'a> {
    /// Takes the bytes of a .pst file as they are. Nothing is tested yet.
    #[must_use]
    pub const fn new(bytes: &'a [u8]) -> Self {
        Self(bytes)
    }

    /// The bytes themselves.
    #[must_use]
    pub const fn bytes(&self) -> &'a [u8] {
        self.0
    }

    /// Tests the header and says what stands in it.
    ///
    /// # Errors
    ///
    /// Refusals 1 to 5.
    pub fn header(&self) -> Result<Header, Refusal> {
        answered(sys::header(self.0)).map(|answer| Header::of(&answer))
    }

    /// The bytes that hang on behind the file: those behind [`Header::end`] and behind the header
    /// itself. What other calls answer does not depend on them, while the image is no longer than
    /// [`LONGEST_IMAGE`](crate::LONGEST_IMAGE).
    ///
    /// ```
    /// use rekwonuda::Image;
    ///
    /// let mut bytes = std::fs::read("../../samples/office.pst")?;
    /// assert!(Image::new(&bytes).hanging()?.is_empty());
    /// bytes.extend(*b"old bytes");
    /// assert_eq!(Image::new(&bytes).hanging()?, b"old bytes");
    /// # Ok::<(), Box<dyn std::error::Error>>(())
    /// ```
    ///
    /// # Errors
    ///
    /// Refusals 1 to 5.
    pub fn hanging(&self) -> Result<&'a [u8], Refusal> {
        let start = self.header()?.end.max(SHORTEST_IMAGE) as usize;
        Ok(self.0.get(start..).unwrap_or_default())
    }

    /// What an accepted header says, and the bytes up to the end that it states.
    pub(crate) fn file(&self) -> Option<(Header, &'a [u8])> {
        let header = self.header().ok()?;
        Some((header, self.0.get(..header.end as usize)?))
    }

    /// Checks the header and then the whole node tree.
    ///
    /// # Errors
    ///
    /// Refusals 1 to 11, and 21.
    pub fn check_nodes(&self) -> Result<(), Refusal> {
        answered(sys::check_nodes(self.0)).map(drop)
    }

    /// Checks the header and then the whole block tree.
    ///
    /// # Errors
    ///
    /// Refusals 1 to 11, and 21.
    pub fn check_blocks(&self) -> Result<(), Refusal> {
        answered(sys::check_blocks(self.0)).map(drop)
    }

    /// Looks up a node.
    ///
    /// # Errors
    ///
    /// Refusals 1 to 11, and 21, of the header and of the pages on the way.
    pub fn find_node(&self, node: NodeId) -> Result<Lookup<Node>, Refusal> {
        answered(sys::find_node(self.0, node.0.into())).map(|answer| Lookup::<Node>::of(&answer))
    }

    /// Looks up any number of nodes, each by the low four bytes of its number. Each answer is the one
    /// that [`Image::find_node`] gives, a refusal too, and they stand in the order asked; numbers may
    /// come twice. A refusal, 1 to 11 or 21, stands in the places of the numbers that met it; one of the
    /// header stands in each. The library is called with up to 4,096 numbers at a time.
    ///
    /// ```
    /// use rekwonuda::{Image, NodeId};
    ///
    /// let bytes = std::fs::read("../../samples/office.pst")?;
    /// let image = Image::new(&bytes);
    /// let answers = image.find_nodes(&[0x8082, 7, 0x8082]);
    /// let inbox = answers[0]?.entry.expect("it is there");
    /// assert_eq!(inbox.id, NodeId(0x8082));
    /// assert!(answers[1]?.entry.is_none());
    /// assert_eq!(answers[2], image.find_node(NodeId(0x8082)));
    /// # Ok::<(), Box<dyn std::error::Error>>(())
    /// ```
    #[must_use]
    pub fn find_nodes(&self, nodes: &[u64]) -> Vec<Result<Lookup<Node>, Refusal>> {
        let mut places = vec![[0; NodeAnswer::WORDS]; nodes.len().min(sys::MOST_NODES)];
        let mut answers = Vec::with_capacity(nodes.len());
        for piece in nodes.chunks(sys::MOST_NODES) {
            let listed = sys::find_nodes(self.0, piece, places.as_flattened_mut());
            // A list and an area of these lengths are not refused; were they, no place would say so.
            let listed = answered(listed).map(drop);
            let fields = places.iter().take(piece.len());
            answers.extend(fields.map(|fields| {
                listed?;
                let answer = answered(NodeAnswer::from_fields(*fields))?;
                Ok(Lookup::<Node>::of(&answer))
            }));
        }
        answers
    }

    /// Looks up a block. Bit 0 of the number counts neither here nor in the block tree; the block is
    /// answered with its number as stored.
    ///
    /// # Errors
    ///
    /// Refusals 1 to 11, and 21, of the header and of the pages on the way.
    pub fn find_block(&self, block: BlockId) -> Result<Lookup<Block>, Refusal> {
        answered(sys::find_block(self.0, block.0)).map(|answer| Lookup::<Block>::of(&answer))
    }

    /// Looks up the first node whose number is at least `from`.
    ///
    /// # Errors
    ///
    /// Refusals 1 to 11, and 21, of the header and of the pages on the way.
    pub fn next_node(&self, from: NodeId) -> Result<Lookup<Node>, Refusal> {
        answered(sys::next_node(self.0, from.0.into())).map(|answer| Lookup::<Node>::of(&answer))
    }

    /// Looks up the first block whose number, with bit 0 cleared, is at least `from` as given: so one
    /// above the number of a block is behind it, whether that has the bit or not.
    ///
    /// # Errors
    ///
    /// Refusals 1 to 11, and 21, of the header and of the pages on the way.
    pub fn next_block(&self, from: BlockId) -> Result<Lookup<Block>, Refusal> {
        answered(sys::next_block(self.0, from.0)).map(|answer| Lookup::<Block>::of(&answer))
    }

    /// All nodes in the order of their numbers, by [`Image::next_node`]. A refusal comes last.
    pub fn nodes(&self) -> Nodes<'a> {
        Nodes::new(*self)
    }

    /// All blocks in the order of their numbers, by [`Image::next_block`]. A refusal comes last.
    pub fn blocks(&self) -> Blocks<'a> {
        Blocks::new(*self)
    }

    /// Looks up a block, tests its place, trailer and checksum, and says how many bytes it holds.
    ///
    /// # Errors
    ///
    /// Refusals 1 to 15, and 21; 12 where the block is not listed.
    pub fn test_block(&self, block: BlockId) -> Result<usize, Refusal> {
        answered(sys::test_block(self.0, block.0)).map(|answer| answer.size as usize)
    }

    /// Tests a block and puts its bytes at the front of `out`, decoded; says how many they are.
    /// Internal blocks are never encoded and come as they are stored. What follows in `out` stays as
    /// it was.
    ///
    /// # Errors
    ///
    /// Refusals 1 to 15 and 21, and 17 where `out` is too short. `out` is then as it was.
    pub fn read_block(&self, block: BlockId, out: &mut [u8]) -> Result<usize, Refusal> {
        answered(sys::read_block(self.0, block.0, out)).map(|answer| answer.length as usize)
    }

    /// The bytes of a block in a buffer of their own, as [`Image::read_block`] gives them.
    ///
    /// # Errors
    ///
    /// Refusals 1 to 15, and 21.
    pub fn block_data(&self, block: BlockId) -> Result<Vec<u8>, Refusal> {
        let mut data = vec![0; LARGEST_BLOCK];
        let length = self.read_block(block, &mut data)?;
        data.truncate(length);
        Ok(data)
    }

    /// Looks up a node, tests all blocks of its data and the shape of its data tree, and says how many
    /// bytes the data has: 0 for a node without data, `None` where the node is absent.
    ///
    /// It is [`Image::read_node`] without a buffer: the refusal for that comes last, when all the rest
    /// has been accepted.
    ///
    /// # Errors
    ///
    /// Refusals 1 to 16, and 21.
    pub fn test_node(&self, node: NodeId) -> Result<Option<usize>, Refusal> {
        match self.read_node(node, &mut []) {
            Err(refusal) if refusal.fault == Fault::ShortBuffer => Ok(Some(refusal.more as usize)),
            answer => answer,
        }
    }

    /// Looks up a node and puts its data at the front of `out`; says how many bytes they are, or
    /// `None` where the node is absent. What follows in `out` stays as it was.
    ///
    /// # Errors
    ///
    /// Refusals 1 to 16 and 21, and 17 where `out` is too short. `out` is then as it was.
    pub fn read_node(&self, node: NodeId, out: &mut [u8]) -> Result<Option<usize>, Refusal> {
        let answer = answered(sys::read_node(self.0, node.0.into(), out))?;
        Ok((answer.found == 1).then_some(answer.length as usize))
    }

    /// The data of a node in a buffer of its own, or `None` where the node is absent.
    ///
    /// # Errors
    ///
    /// Refusals 1 to 16, and 21.
    pub fn node_data(&self, node: NodeId) -> Result<Option<Vec<u8>>, Refusal> {
        let Some(length) = self.test_node(node)? else {
            return Ok(None);
        };
        let mut data = vec![0; length];
        self.read_node(node, &mut data)?;
        Ok(Some(data))
    }

    /// The blocks that hold the data behind a node's data block, in the order of their bytes: the block
    /// itself, or, where it is internal, those that it lists. One may be named twice.
    ///
    /// Of these blocks none is looked up or tested, so that a list can be had of data which is damaged;
    /// only an internal block is read itself. That its bytes make a list is told by this crate and not
    /// by the proved library; where they do not, the refusal is the one that [`Image::test_node`] gives.
    ///
    /// ```
    /// use rekwonuda::{Image, NodeId};
    ///
    /// let bytes = std::fs::read("../../samples/office.pst")?;
    /// let image = Image::new(&bytes);
    /// let note = image.find_node(NodeId(0x20_0284))?.entry.expect("it is there");
    /// let data = note.data.expect("it has data");
    /// assert_eq!(image.data_blocks(data)?.len(), 3);
    /// # Ok::<(), Box<dyn std::error::Error>>(())
    /// ```
    ///
    /// # Errors
    ///
    /// Of an internal block alone: refusals 1 to 15 and 21, and 16 where it is no data tree of one
    /// level.
    pub fn data_blocks(&self, data: BlockId) -> Result<Vec<BlockId>, Refusal> {
        if !data.is_internal() {
            return Ok(vec![data]);
        }
        let root = self.block_data(data)?;
        if let Some(blocks) = listed_blocks(&root, self.header()?.edition) {
            return Ok(blocks);
        }
        let root = self.find_block(data)?.entry;
        Err(Refusal {
            fault: Fault::DataTree,
            place: root.map_or(0, |root| root.offset),
            more: 0,
        })
    }
}

/// The blocks that the root block of a data tree of one level lists: 1, 1, their count in two bytes,
/// four bytes more, and then eight bytes for each number, in a 32-bit file four.
fn listed_blocks(root: &[u8], edition: Edition) -> Option<Vec<BlockId>> {
    let (head, numbers) = root.split_first_chunk::<8>()?;
    let count = usize::from(u16::from_le_bytes([head[2], head[3]]));
    let blocks: Vec<BlockId> = numbers
        .chunks(edition.width())
        .map(|number| BlockId(number_of(number)))
        .collect();
    let is_list = head[..2] == [1, 1]
        && (1..=edition.most_listed()).contains(&count)
        && root.len() == 8 + edition.width() * count
        && !blocks.iter().any(|block| block.is_internal());
    is_list.then_some(blocks)
}

/// The number that these bytes are, the lowest first.
pub(crate) fn number_of(bytes: &[u8]) -> u64 {
    let bytes = bytes.iter().rev();
    bytes.fold(0, |number, byte| number << 8 | u64::from(*byte))
}
