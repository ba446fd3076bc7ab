//! The two editions, and the numbers in which they differ (02, 7/13; 003, 2.2.2.6 to 2.2.2.8 and 2.3.4.3.1).
//! Whatever reads or builds an image goes by these.

use crate::bytes::{number_at, put, u16_at};
use crate::page::{Tree, STEP};

/// Where the header has its version.
pub const VERSION: usize = 10;

#[derive(Clone, Copy, PartialEq, Eq, PartialOrd, Ord, Debug, Default)]
pub enum Edition {
    #[default]
    Bits64,
    Bits32,
}

impl Edition {
    pub const BOTH: [Edition; 2] = [Edition::Bits64, Edition::Bits32];

    /// None of a version that no rule covers.
    pub fn of_version(version: u16) -> Option<Self> {
        match version {
            23 => Some(Edition::Bits64),
            14 | 15 => Some(Edition::Bits32),
            _ => None,
        }
    }

    /// By the version in the header. An image without one, or of a version that no rule covers, is
    /// refused in any case; it counts as of 64 bits.
    pub fn of(image: &[u8]) -> Self {
        let version = image.get(VERSION..VERSION + 2);
        let edition = version.and_then(|field| Self::of_version(u16_at(field, 0)));
        edition.unwrap_or_default()
    }

    /// As the header's answer has it.
    pub fn bits(self) -> u64 {
        match self {
            Edition::Bits64 => 64,
            Edition::Bits32 => 32,
        }
    }

    pub fn layout(self) -> &'static Layout {
        match self {
            Edition::Bits64 => &BITS_64,
            Edition::Bits32 => &BITS_32,
        }
    }
}

/// A page as its parent or the header names it.
#[derive(Clone, Copy, PartialEq, Eq, Debug)]
pub struct Reference {
    pub number: u64,
    pub offset: u64,
}

/// Places count from the first byte of the image, the page or the trailer.
#[derive(Debug)]
pub struct Layout {
    /// The bytes of a block's or a page's number, of an offset and of the end-of-file number. Entries and
    /// data trees are made of fields of this width, and of smaller ones behind them.
    pub width: usize,
    pub header: HeaderPlaces,
    pub page: PagePlaces,
    pub index: Entries,
    pub block_leaf: Entries,
    pub node_leaf: Entries,
    pub trailer: TrailerPlaces,
    /// The most bytes of a block's data.
    pub most_size: u16,
    pub most_children: usize,
    /// The bytes of a row's number in the row index of a table.
    pub row_number: usize,
}

#[derive(Debug)]
pub struct HeaderPlaces {
    pub end: usize,
    /// The references to the root pages.
    pub nodes: usize,
    pub blocks: usize,
    /// The encoding method stands right behind it.
    pub sentinel: usize,
    /// The second checksum, which only one edition has.
    pub full_sum: Option<usize>,
}

#[derive(Debug)]
pub struct PagePlaces {
    /// Count, room, entry size and level, a byte each.
    pub counts: usize,
    pub kinds: usize,
    pub signature: usize,
    pub number: usize,
    pub sum: usize,
    /// How many bytes the checksum is of.
    pub summed: usize,
}

#[derive(Debug)]
pub struct TrailerPlaces {
    pub length: usize,
    pub number: usize,
    pub sum: usize,
}

/// The bytes of one entry of a page, and how many of them a page may have.
#[derive(Clone, Copy, PartialEq, Eq, Debug)]
pub struct Entries {
    pub size: usize,
    pub most: usize,
}

static BITS_64: Layout = Layout {
    width: 8,
    header: HeaderPlaces {
        end: 184,
        nodes: 216,
        blocks: 232,
        sentinel: 512,
        full_sum: Some(524),
    },
    page: PagePlaces {
        counts: 488,
        kinds: 496,
        signature: 498,
        number: 504,
        sum: 500,
        summed: 496,
    },
    index: Entries { size: 24, most: 20 },
    block_leaf: Entries { size: 24, most: 20 },
    node_leaf: Entries { size: 32, most: 15 },
    trailer: TrailerPlaces {
        length: 16,
        number: 8,
        sum: 4,
    },
    most_size: 8176,
    most_children: 1021,
    row_number: 4,
};

static BITS_32: Layout = Layout {
    width: 4,
    header: HeaderPlaces {
        end: 168,
        nodes: 184,
        blocks: 192,
        sentinel: 460,
        full_sum: None,
    },
    page: PagePlaces {
        counts: 496,
        kinds: 500,
        signature: 502,
        number: 504,
        sum: 508,
        summed: 500,
    },
    index: Entries { size: 12, most: 41 },
    block_leaf: Entries { size: 12, most: 41 },
    node_leaf: Entries { size: 16, most: 31 },
    trailer: TrailerPlaces {
        length: 12,
        number: 4,
        sum: 8,
    },
    most_size: 8180,
    most_children: 2043,
    row_number: 2,
};

impl Layout {
    pub fn entries(&self, tree: Tree, level: u8) -> Entries {
        match (level, tree) {
            (0, Tree::Nodes) => self.node_leaf,
            (0, Tree::Blocks) => self.block_leaf,
            _ => self.index,
        }
    }

    /// Where the header has the reference to the root page.
    pub fn root(&self, tree: Tree) -> usize {
        match tree {
            Tree::Nodes => self.header.nodes,
            Tree::Blocks => self.header.blocks,
        }
    }

    /// The smallest multiple of 64 that holds the size and the trailer.
    pub fn room(&self, size: u32) -> u64 {
        (u64::from(size) + self.trailer.length as u64).next_multiple_of(STEP)
    }

    /// Where the trailer stands of a block at that offset.
    pub fn trailer_at(&self, offset: usize, size: u16) -> usize {
        offset + self.room(u32::from(size)) as usize - self.trailer.length
    }

    /// The highest number that a field has room for.
    pub fn highest(&self) -> u64 {
        u64::MAX >> (64 - 8 * self.width)
    }

    pub fn number_at(&self, bytes: &[u8], at: usize) -> u64 {
        number_at(bytes, at, self.width)
    }

    /// Of a number that is too long for its place, the low bytes.
    pub fn put_number(&self, bytes: &mut [u8], at: usize, number: u64) {
        put(bytes, at, &number.to_le_bytes()[..self.width]);
    }

    pub fn put_reference(&self, bytes: &mut [u8], at: usize, reference: Reference) {
        self.put_number(bytes, at, reference.number);
        self.put_number(bytes, at + self.width, reference.offset);
    }

    pub fn reference_at(&self, bytes: &[u8], at: usize) -> Reference {
        Reference {
            number: self.number_at(bytes, at),
            offset: self.number_at(bytes, at + self.width),
        }
    }
}
