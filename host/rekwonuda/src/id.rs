use std::fmt;

macro_rules! id {
    ($(#[doc = $about:literal])* $name:ident($number:ident)) => {
        $(#[doc = $about])*
        #[derive(Clone, Copy, Debug, Default, PartialEq, Eq, PartialOrd, Ord, Hash)]
        pub struct $name(
            /// The number itself.
            pub $number,
        );

        impl From<$number> for $name {
            fn from(number: $number) -> Self {
                Self(number)
            }
        }

        impl From<$name> for $number {
            fn from(id: $name) -> Self {
                id.0
            }
        }

        /// Hexadecimal after 0x.
        impl fmt::Display for $name {
            fn fmt(&self, out: &mut fmt::Formatter<'_>) -> fmt::Result {
                out.pad(&format!("{:#x}", self.0))
            }
        }

        impl fmt::LowerHex for $name {
            fn fmt(&self, out: &mut fmt::Formatter<'_>) -> fmt::Result {
                fmt::LowerHex::fmt(&self.0, out)
            }
        }
    };
}

id! {
    /// The number of a node. It has four bytes; a 64-bit file stores it in eight, of which the low four
    /// count.
    ///
    /// ```
    /// use rekwonuda::NodeId;
    ///
    /// let root_folder = NodeId(0x122);
    /// assert_eq!(root_folder.to_string(), "0x122");
    /// assert!(root_folder > NodeId(0x21));
    /// ```
    NodeId(u32)
}

id! {
    /// The number of a block. Bit 0 is reserved: numbers that differ only there name one block, and
    /// [`Image::find_block`], [`Image::test_block`] and [`Image::read_block`] answer alike for them. As
    /// values they differ; see [`BlockId::key`]. In a 32-bit file they are under 2^32.
    ///
    /// [`Image::find_block`]: crate::Image::find_block
    /// [`Image::test_block`]: crate::Image::test_block
    /// [`Image::read_block`]: crate::Image::read_block
    ///
    /// ```
    /// use rekwonuda::BlockId;
    ///
    /// assert!(BlockId(0x1A).is_internal());
    /// assert!(!BlockId(0x1C).is_internal());
    /// assert_eq!(u64::from(BlockId(0x1C)), 28);
    /// assert_eq!(BlockId(0x1519).key(), BlockId(0x1518).key());
    /// ```
    BlockId(u64)
}

id! {
    /// The number of an item on a heap.
    ///
    /// ```
    /// use rekwonuda::{Fault, Heap, ItemId};
    ///
    /// let refusal = Heap::new(&[0; 40]).item(ItemId(0x20)).unwrap_err();
    /// assert_eq!(refusal.fault, Fault::HeapShape);
    /// ```
    ItemId(u32)
}

id! {
    /// The tag of a column: the id of a property in the high two bytes, its type code in the low two.
    ///
    /// ```
    /// use rekwonuda::Tag;
    ///
    /// let name = Tag::new(0x3001, 0x1F);
    /// assert_eq!(name, Tag(0x3001_001F));
    /// assert_eq!((name.id(), name.type_code()), (0x3001, 0x1F));
    /// ```
    Tag(u32)
}

impl Tag {
    /// The tag of the number that each row of a table is known by; see [`Table::find_row`].
    ///
    /// [`Table::find_row`]: crate::Table::find_row
    pub const ROW_ID: Self = Self::new(0x67F2, 3);

    /// The tag of a property of that id and type.
    #[must_use]
    pub const fn new(id: u16, type_code: u16) -> Self {
        Self((id as u32) << 16 | type_code as u32)
    }

    /// The id of its property.
    #[must_use]
    pub const fn id(self) -> u16 {
        (self.0 >> 16) as u16
    }

    /// The type code of its property.
    #[must_use]
    pub const fn type_code(self) -> u16 {
        self.0 as u16
    }
}

impl BlockId {
    /// Whether the block is internal: it names other blocks, and is never encoded. Bit 1 of the number
    /// says so.
    #[must_use]
    pub const fn is_internal(self) -> bool {
        self.0 & 2 != 0
    }

    /// The number with bit 0 cleared, by which blocks are looked up and ordered.
    #[must_use]
    pub const fn key(self) -> Self {
        Self(self.0 & !1)
    }

    /// The data block of that number, where 0 stands for none and 1 counts as 0.
    pub(crate) fn of_data(number: u64) -> Option<Self> {
        (Self(number).key().0 != 0).then_some(Self(number))
    }

    /// The block of that number, where 0 stands for none.
    pub(crate) fn unless_zero(number: u64) -> Option<Self> {
        (number != 0).then_some(Self(number))
    }
}
