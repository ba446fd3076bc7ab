use rekwonuda_sys as sys;
use std::fmt;

/// The edition of a file: how wide its numbers are, where they stand, and how much of what there is at
/// most. As text it is "64-bit" or "32-bit".
///
/// ```
/// use rekwonuda::{Edition, Image};
///
/// let bytes = std::fs::read("../../samples/small-office.pst")?;
/// let edition = Image::new(&bytes).header()?.edition;
/// assert_eq!(edition, Edition::Bits32);
/// assert_eq!(edition.longest_data(), 16_711_740);
/// # Ok::<(), Box<dyn std::error::Error>>(())
/// ```
#[derive(Clone, Copy, Debug, PartialEq, Eq, PartialOrd, Ord, Hash)]
pub enum Edition {
    /// The older edition, also called ANSI: versions 14 and 15.
    Bits32,
    /// The edition also called Unicode: version 23.
    Bits64,
}

impl Edition {
    /// The edition of files whose header has that version; `None` where it is refused.
    #[must_use]
    pub const fn of_version(version: u16) -> Option<Self> {
        match version {
            14 | 15 => Some(Self::Bits32),
            23 => Some(Self::Bits64),
            _ => None,
        }
    }

    /// How many bits the numbers of blocks and the offsets have in a file: 64 or 32.
    #[must_use]
    pub const fn bits(self) -> u8 {
        match self {
            Self::Bits32 => 32,
            Self::Bits64 => 64,
        }
    }

    /// How many bytes they have: 8 or 4.
    #[must_use]
    pub const fn width(self) -> usize {
        self.bits() as usize / 8
    }

    /// The most bytes that a block holds: 8,176 or 8,180.
    #[must_use]
    pub const fn largest_block(self) -> usize {
        match self {
            Self::Bits32 => 8_180,
            Self::Bits64 => 8_176,
        }
    }

    /// The most blocks that a data tree lists: 1,021 or 2,043.
    #[must_use]
    pub const fn most_listed(self) -> usize {
        (self.largest_block() - 8) / self.width()
    }

    /// The most bytes that the data of a node has: 8,347,696 or 16,711,740.
    #[must_use]
    pub const fn longest_data(self) -> usize {
        self.most_listed() * self.largest_block()
    }

    /// The room that a block with so many bytes of data takes in a file: the smallest multiple of 64
    /// that holds them and a trailer, which has 16 or 12 bytes.
    #[must_use]
    pub fn room(self, size: u32) -> u64 {
        match self {
            Self::Bits32 => sys::room32(size),
            Self::Bits64 => sys::room(size),
        }
    }

    /// The edition of an accepted header, which is 64 or 32.
    pub(crate) fn of_header(bits: u64) -> Self {
        match bits {
            32 => Self::Bits32,
            _ => Self::Bits64,
        }
    }
}

impl fmt::Display for Edition {
    fn fmt(&self, out: &mut fmt::Formatter<'_>) -> fmt::Result {
        out.pad(&format!("{}-bit", self.bits()))
    }
}
