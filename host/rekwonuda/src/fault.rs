macro_rules! faults {
    ($($(#[doc = $about:literal])* $number:literal $name:ident,)*) => {
        /// What is wrong, by the numbers of `include/rekwonuda.h`.
        ///
        /// ```
        /// use rekwonuda::{Fault, Image};
        ///
        /// let refusal = Image::new(&[0; 564]).header().unwrap_err();
        /// assert_eq!(refusal.fault, Fault::Magic);
        /// assert_eq!(refusal.fault.number(), 2);
        /// assert_eq!(Fault::from(9), Fault::PageChecksum);
        /// ```
        #[non_exhaustive]
        #[derive(Clone, Copy, Debug, PartialEq, Eq, PartialOrd, Ord, Hash)]
        pub enum Fault {
            $($(#[doc = $about])* $name,)*
            /// A number that this crate has no name for: the archive is newer than the crate.
            Unnamed(u64),
        }

        impl Fault {
            /// Its number.
            #[must_use]
            pub const fn number(self) -> u64 {
                match self {
                    $(Self::$name => $number,)*
                    Self::Unnamed(number) => number,
                }
            }
        }

        impl From<u64> for Fault {
            fn from(number: u64) -> Self {
                match number {
                    $($number => Self::$name,)*
                    _ => Self::Unnamed(number),
                }
            }
        }
    };
}

faults! {
    /// 1: the image is under 564 or over 1,073,741,824 bytes long; or, at 184 or in a 32-bit file at
    /// 168, shorter than its header says.
    1 ImageLength,
    /// 2: the magic bytes are wrong, at 0 or 8.
    2 Magic,
    /// 3: the version is none of 14, 15 and 23; at 10.
    3 Version,
    /// 4: a checksum of the header differs, at 4 or 524; a 32-bit file has the one at 4 alone.
    4 HeaderChecksum,
    /// 5: the header's sentinel or encoding method is wrong, at 512 or 513, in a 32-bit file at 460 or
    /// 461.
    5 Encoding,
    /// 6: the offset of a page is not allowed, or the page goes past the end of the file.
    6 PageOffset,
    /// 7: the kind of a page is wrong.
    7 PageKind,
    /// 8: the number or signature of a page is wrong.
    8 PageNumber,
    /// 9: the checksum of a page differs.
    9 PageChecksum,
    /// 10: the counts or the level of a page are wrong.
    10 PageCounts,
    /// 11: the key of an entry of a page is not above the one before it.
    11 KeyOrder,
    /// 12: a block to be tested or read is not in the block tree.
    12 BlockUnlisted,
    /// 13: the offset or size of a block is not allowed, or its room goes past the end of the file.
    13 BlockOffset,
    /// 14: the trailer of a block is wrong.
    14 BlockTrailer,
    /// 15: the checksum of a block differs.
    15 BlockChecksum,
    /// 16: the shape of a data tree is wrong; at its root block.
    16 DataTree,
    /// 17: the buffer is shorter than the data. No call of this crate that lends a buffer of its own
    /// meets it.
    17 ShortBuffer,
    /// 18: the shape of a heap is wrong.
    18 HeapShape,
    /// 19: the number of a heap item is wrong.
    19 HeapItem,
    /// 20: the shape of a property tree is wrong.
    20 PropertyTree,
    /// 21: a key lies outside the range of its page.
    21 KeyRange,
    /// 23: the shape of a table is wrong.
    23 TableShape,
}
