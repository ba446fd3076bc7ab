//! The structs that the calls answer with, each field 64 bits wide and in the header's order.

/// What every answer but a bare number begins with.
pub trait Answered {
    /// The fields `refusal`, `place` and `more`; the first is 0 where the call is answered.
    fn refusal(&self) -> [u64; 3];
}

macro_rules! answers {
    ($(
        $(#[doc = $about:literal])*
        $name:ident { $($(#[doc = $field_about:literal])* $field:ident,)* }
    )*) => {$(
        $(#[doc = $about])*
        #[repr(C)]
        #[derive(Clone, Copy, Debug, PartialEq, Eq)]
        #[must_use]
        pub struct $name {
            /// 0 where the call is answered, else the number of the first fault met.
            pub refusal: u64,
            /// The place of that fault: an offset in the image, or 0.
            pub place: u64,
            /// What else the refusal says: for 17 the length needed or, of a list of nodes and of a row
            /// of cells, a number of places, for 11 and 21 the index of the first entry at fault, from 0,
            /// otherwise 0.
            pub more: u64,
            $($(#[doc = $field_about])* pub $field: u64,)*
        }

        impl $name {
            /// The names of all fields, in their order.
            pub const NAMES: &'static [&'static str] =
                &["refusal", "place", "more", $(stringify!($field),)*];

            /// How many fields there are, which is how many words a place for it takes.
            pub const WORDS: usize = Self::NAMES.len();

            /// All fields, in their order.
            #[must_use]
            pub fn fields(self) -> [u64; Self::WORDS] {
                [self.refusal, self.place, self.more, $(self.$field,)*]
            }

            /// The answer that has these fields, in their order.
            pub fn from_fields([refusal, place, more, $($field,)*]: [u64; Self::WORDS]) -> Self {
                Self { refusal, place, more, $($field,)* }
            }
        }

        impl Answered for $name {
            fn refusal(&self) -> [u64; 3] {
                [self.refusal, self.place, self.more]
            }
        }
    )*};
}

answers! {
    /// Accepted or done, or refused.
    Answer {}

    /// What the header says.
    HeaderAnswer {
        /// How block data is encoded: 0 not at all, 1 permute, 2 cyclic.
        method,
        /// The number of the node tree's root page.
        nodes_number,
        /// The offset of the node tree's root page.
        nodes_offset,
        /// The number of the block tree's root page.
        blocks_number,
        /// The offset of the block tree's root page.
        blocks_offset,
        /// The end-of-file number, at most the length of the image.
        end,
        /// The edition: 64 or 32.
        edition,
    }

    /// A node.
    NodeAnswer {
        /// 1 where it is there, 0 where it is absent.
        found,
        /// How many pages were read, also where the node is absent.
        pages,
        /// Its number.
        node,
        /// The number of its data block as stored, 0 or 1 for none.
        data,
        /// The number of its subnode block, 0 for none.
        subnode,
        /// The number of its parent node as stored, which is not tested.
        parent,
    }

    /// A block as it is listed.
    BlockAnswer {
        /// 1 where it is there, 0 where it is absent.
        found,
        /// How many pages were read, also where the block is absent.
        pages,
        /// Its number as stored.
        block,
        /// Where it starts in the image.
        offset,
        /// How many bytes it holds.
        size,
        /// Its reference count as stored, which is not tested.
        references,
    }

    /// The size of a block that was tested.
    SizeAnswer {
        /// How many bytes the block holds.
        size,
    }

    /// The bytes of a block, in the caller's buffer.
    LengthAnswer {
        /// How many bytes now stand at the front of the buffer.
        length,
    }

    /// The data of a node, in the caller's buffer.
    DataAnswer {
        /// 1 where the node is there, 0 where it is absent.
        found,
        /// How many bytes now stand at the front of the buffer; 0 for a node without data.
        length,
    }

    /// Where an item stands in the caller's block.
    ItemAnswer {
        /// Its first byte.
        start,
        /// How many bytes it has.
        length,
    }

    /// A property.
    PropertyAnswer {
        /// 1 where it is there, 0 where it is absent.
        found,
        /// Its type code; `type` in C.
        type_code,
        /// What `value` is: 0 the value itself, 1 nothing, 2 the number of a heap item, 3 the number
        /// of a subnode.
        kind,
        /// The value, or the number of what holds it.
        value,
    }

    /// What the record of a table says.
    TableAnswer {
        /// How many columns it has, at most 255.
        columns,
        /// How many bytes a row has.
        row_size,
        /// Where in a row its existence bytes begin.
        existence,
        /// Where the rows stand: 1 nowhere, 2 in a heap item, 3 in a subnode.
        rows_kind,
        /// The number of that item or subnode, or 0.
        rows_value,
    }

    /// A column of a table.
    ColumnAnswer {
        /// 1 where it is there, 0 where it is absent.
        found,
        /// Its tag: a property id in the high two bytes, a type code in the low two.
        tag,
        /// Where in a row its cell begins.
        offset,
        /// How many bytes its cell has.
        width,
        /// Its existence bit.
        bit,
    }

    /// The rows of a table.
    CountAnswer {
        /// How many there are.
        rows,
    }

    /// A cell of a table.
    CellAnswer {
        /// 1 where it is there, 0 where it is absent.
        found,
        /// What `value` is: 0 the value itself, 1 nothing of an empty cell, 2 the number of a heap
        /// item, 3 the number of a subnode, 4 nothing of a missing cell.
        kind,
        /// The value, or the number of what holds it.
        value,
    }

    /// The row that the row index names for an id.
    RowAnswer {
        /// 1 where it names one, 0 where it does not.
        found,
        /// The row's number as stored.
        row,
    }

    /// The cells of a row, in the caller's area.
    CellsAnswer {
        /// 1 where the row is there, 0 where it is absent.
        found,
        /// How many places of the area now hold a cell.
        cells,
    }
}
