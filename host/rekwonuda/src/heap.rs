use crate::refusal::answered;
use crate::{ItemId, NodeId, Refusal};
use rekwonuda_sys as sys;
use std::iter::FusedIterator;

/// The bytes of one block with a heap on it, decoded, as [`Image::read_block`] hands them out.
///
/// Any bytes will do: every call tests the heap's shape first.
///
/// ```
/// use rekwonuda::{Heap, Image, NodeId};
///
/// let bytes = std::fs::read("../../samples/office.pst")?;
/// let data = Image::new(&bytes).node_data(NodeId(0x21))?.expect("it is there");
/// let heap = Heap::new(&data);
/// assert_eq!(heap.client_kind()?, Heap::PROPERTIES);
/// # Ok::<(), Box<dyn std::error::Error>>(())
/// ```
///
/// [`Image::read_block`]: crate::Image::read_block
#[derive(Clone, Copy, Debug)]
pub struct Heap<'a>(&'a [u8]);

/// A property as it was found.
///
/// ```
/// use rekwonuda::{Heap, Image, NodeId};
///
/// let bytes = std::fs::read("../../samples/office.pst")?;
/// let data = Image::new(&bytes).node_data(NodeId(0x8082))?.expect("it is there");
/// let name = Heap::new(&data).find_property(0x3001)?.expect("a folder has a name");
/// assert_eq!((name.id, name.type_code), (0x3001, 0x1F));
/// # Ok::<(), Box<dyn std::error::Error>>(())
/// ```
#[non_exhaustive]
#[derive(Clone, Copy, Debug, PartialEq, Eq)]
pub struct Property {
    /// Its id.
    pub id: u16,
    /// Its type code.
    pub type_code: u16,
    /// Its value, or where that stands.
    pub value: Value,
}

/// The value of a property, or where it stands.
///
/// ```
/// use rekwonuda::{Heap, Image, NodeId, Value};
///
/// let bytes = std::fs::read("../../samples/office.pst")?;
/// let data = Image::new(&bytes).node_data(NodeId(0x8082))?.expect("it is there");
/// let messages = Heap::new(&data).find_property(0x3602)?.expect("a folder has a count");
/// assert_eq!(messages.value, Value::Number(11));
/// # Ok::<(), Box<dyn std::error::Error>>(())
/// ```
#[derive(Clone, Copy, Debug, PartialEq, Eq)]
pub enum Value {
    /// The value itself: all four bytes as one number.
    Number(u32),
    /// No value.
    Empty,
    /// The heap item that holds it; [`Heap::item`] accepts it.
    Item(ItemId),
    /// The subnode that holds it.
    Subnode(NodeId),
}

impl<'a> Heap<'a> {
    /// The client kind of a heap that holds properties.
    pub const PROPERTIES: u8 = 0xBC;

    /// The client kind of a heap that holds a table.
    pub const TABLE: u8 = 0x7C;

    /// Takes the bytes of a block as they are. Nothing is tested yet.
    #[must_use]
    pub const fn new(block: &'a [u8]) -> Self {
        Self(block)
    }

    /// The bytes themselves.
    #[must_use]
    pub const fn bytes(&self) -> &'a [u8] {
        self.0
    }

    /// Tests the shape of the heap.
    ///
    /// # Errors
    ///
    /// Refusal 18.
    pub fn test(&self) -> Result<(), Refusal> {
        answered(sys::test_heap(self.0)).map(drop)
    }

    /// Tests the shape of the heap and says what its client kind is: what it is used for, as
    /// [`Heap::PROPERTIES`] or [`Heap::TABLE`].
    ///
    /// # Errors
    ///
    /// Refusal 18.
    pub fn client_kind(&self) -> Result<u8, Refusal> {
        self.test().map(|()| self.0[3])
    }

    /// Tests the heap and then the number of an item.
    ///
    /// # Errors
    ///
    /// Refusals 18 and 19.
    pub fn test_item(&self, item: ItemId) -> Result<(), Refusal> {
        answered(sys::test_item(self.0, item.0)).map(drop)
    }

    /// The bytes of an item, as a part of the block.
    ///
    /// # Errors
    ///
    /// Refusals 18 and 19.
    pub fn item(&self, item: ItemId) -> Result<&'a [u8], Refusal> {
        let answer = answered(sys::item(self.0, item.0))?;
        let start = answer.start as usize;
        Ok(&self.0[start..start + answer.length as usize])
    }

    /// Looks up a property by its id; `None` where it is absent.
    ///
    /// # Errors
    ///
    /// Refusals 18 to 20.
    pub fn find_property(&self, id: u16) -> Result<Option<Property>, Refusal> {
        let answer = answered(sys::find_property(self.0, id))?;
        let number = answer.value as u32;
        let value = match answer.kind {
            0 => Value::Number(number),
            1 => Value::Empty,
            2 => Value::Item(ItemId(number)),
            _ => Value::Subnode(NodeId(number)),
        };
        Ok((answer.found == 1).then_some(Property {
            id,
            type_code: answer.type_code as u16,
            value,
        }))
    }

    /// All properties in the order of their ids, by a lookup of every id that there can be. A refusal
    /// comes last.
    pub fn properties(&self) -> Properties<'a> {
        Properties {
            heap: *self,
            from: Some(0),
        }
    }
}

/// All properties of a heap, from [`Heap::properties`]. A refusal comes last.
///
/// ```
/// use rekwonuda::{Heap, Image, NodeId};
///
/// let bytes = std::fs::read("../../samples/office.pst")?;
/// let data = Image::new(&bytes).node_data(NodeId(0x21))?.expect("it is there");
/// let mut ids = Vec::new();
/// for property in Heap::new(&data).properties() {
///     ids.push(property?.id);
/// }
/// assert_eq!(ids, [0x0FF9, 0x3001, 0x35DF, 0x35E0, 0x35E3, 0x35E7, 0x6633, 0x67FF]);
/// # Ok::<(), Box<dyn std::error::Error>>(())
/// ```
#[derive(Clone, Debug)]
#[must_use = "an iterator does nothing until it is gone through"]
pub struct Properties<'a> {
    heap: Heap<'a>,
    from: Option<u16>,
}

impl Iterator for Properties<'_> {
    type Item = Result<Property, Refusal>;

    fn next(&mut self) -> Option<Self::Item> {
        while let Some(id) = self.from.take() {
            let found = self.heap.find_property(id).transpose();
            if !matches!(found, Some(Err(_))) {
                self.from = id.checked_add(1);
            }
            if found.is_some() {
                return found;
            }
        }
        None
    }
}

impl FusedIterator for Properties<'_> {}
