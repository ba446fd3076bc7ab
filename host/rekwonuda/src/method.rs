use crate::BlockId;
use rekwonuda_sys as sys;
use std::fmt;

/// How the bytes of blocks are encoded. As text it is "none", "permute" or "cyclic".
///
/// ```
/// use rekwonuda::{BlockId, Method};
///
/// let mut bytes = *b"Leave in August";
/// Method::Cyclic.encode(BlockId(0x1518), &mut bytes);
/// assert_ne!(&bytes, b"Leave in August");
/// Method::Cyclic.decode(BlockId(0x1518), &mut bytes);
/// assert_eq!(&bytes, b"Leave in August");
/// ```
#[derive(Clone, Copy, Debug, PartialEq, Eq, PartialOrd, Ord, Hash)]
pub enum Method {
    /// 0: not at all.
    None,
    /// 1: each byte by a table.
    Permute,
    /// 2: each byte by tables, its place and the number of its block.
    Cyclic,
}

impl Method {
    /// Its number in the header.
    #[must_use]
    pub const fn number(self) -> u8 {
        match self {
            Self::None => 0,
            Self::Permute => 1,
            Self::Cyclic => 2,
        }
    }

    /// Encodes the bytes in place as the data of that block, whatever their number and its.
    pub fn encode(self, block: BlockId, bytes: &mut [u8]) {
        let answer = sys::encode(self.number(), block.0, bytes);
        debug_assert_eq!(answer.refusal, 0);
    }

    /// Decodes the bytes in place as the data of that block; undoes [`Method::encode`].
    pub fn decode(self, block: BlockId, bytes: &mut [u8]) {
        let answer = sys::decode(self.number(), block.0, bytes);
        debug_assert_eq!(answer.refusal, 0);
    }

    /// The method of an accepted header, whose number is 0, 1 or 2.
    pub(crate) fn of_header(number: u64) -> Self {
        match number {
            0 => Self::None,
            1 => Self::Permute,
            _ => Self::Cyclic,
        }
    }
}

impl fmt::Display for Method {
    fn fmt(&self, out: &mut fmt::Formatter<'_>) -> fmt::Result {
        out.pad(match self {
            Self::None => "none",
            Self::Permute => "permute",
            Self::Cyclic => "cyclic",
        })
    }
}
