//! Where the fields of a page stand, by the edition.

use crate::image::number_of;
use crate::{checksum, Edition};

pub const PAGE: usize = 512;

#[derive(Debug)]
pub struct Layout {
    /// How many bytes a key, the number of a page and an offset have.
    pub width: usize,
    /// Where the count of the entries stands; a byte each for the room, the entry size and the level
    /// follow.
    pub counts: usize,
    /// Where the trailer begins, with two bytes for the kind and then two for the signature. The checksum
    /// is of all bytes before it.
    pub trailer: usize,
    /// Where the checksum stands.
    pub checksum: usize,
    /// How many bytes an entry has and how many entries a page has at most, in leaves of the node tree.
    pub node_leaf: (u8, u8),
    /// The same in all other pages.
    pub other: (u8, u8),
}

/// What the trailer of a page must say.
pub struct Seal {
    pub kind: u8,
    pub number: u64,
    pub signature: u16,
}

impl Layout {
    /// Where the number of the page stands.
    const NUMBER: usize = 504;

    pub fn of(edition: Edition) -> &'static Layout {
        match edition {
            Edition::Bits32 => &Layout {
                width: 4,
                counts: 496,
                trailer: 500,
                checksum: 508,
                node_leaf: (16, 31),
                other: (12, 41),
            },
            Edition::Bits64 => &Layout {
                width: 8,
                counts: 488,
                trailer: 496,
                checksum: 500,
                node_leaf: (32, 15),
                other: (24, 20),
            },
        }
    }

    /// The number that stands in a page.
    pub fn number(&self, page: &[u8]) -> u64 {
        number_of(&page[Self::NUMBER..Self::NUMBER + self.width])
    }

    /// Whether the kind, number, signature and checksum of a page are right.
    pub fn is_sealed(&self, page: &[u8], seal: &Seal) -> bool {
        let Layout {
            trailer,
            checksum: sum,
            ..
        } = *self;
        page[trailer..trailer + 2] == [seal.kind; 2]
            && self.number(page) == seal.number
            && page[trailer + 2..trailer + 4] == seal.signature.to_le_bytes()
            && page[sum..sum + 4] == checksum(&page[..trailer]).to_le_bytes()
    }
}
