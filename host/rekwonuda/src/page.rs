//! One page of a tree, as far as this crate reads it by itself.

use crate::image::number_of;
use crate::layout::{Layout, Seal, PAGE};
use crate::{signature, Header, Key, PageReference};

pub const STEP: usize = 64;
const FIRST_OFFSET: usize = 0x4400;
const MOST_LEVEL: u8 = 7;

#[derive(Clone, Copy, Debug, PartialEq, Eq)]
pub enum Tree {
    Nodes,
    Blocks,
}

impl Tree {
    pub fn root(self, header: &Header) -> PageReference {
        match self {
            Self::Nodes => header.nodes,
            Self::Blocks => header.blocks,
        }
    }

    fn kind(self) -> u8 {
        match self {
            Self::Nodes => 0x81,
            Self::Blocks => 0x80,
        }
    }

    fn key(self, stored: u64) -> Key {
        let compared = match self {
            Self::Nodes => stored & 0xFFFF_FFFF,
            Self::Blocks => stored & !1,
        };
        Key { stored, compared }
    }

    /// How many bytes an entry has in a page of that level, and how many entries the page has at most.
    fn entries(self, level: u8, layout: &Layout) -> (u8, u8) {
        match (self, level) {
            (Self::Nodes, 0) => layout.node_leaf,
            _ => layout.other,
        }
    }
}

/// A reference to a page, and what the page must be.
#[derive(Clone, Copy, Debug)]
pub struct Branch {
    pub page: PageReference,
    /// `None` for a root, which may have any level.
    level: Option<u8>,
    from: u64,
    to: Option<u64>,
}

impl Branch {
    pub fn root(page: PageReference) -> Self {
        Self {
            page,
            level: None,
            from: 0,
            to: None,
        }
    }
}

/// A page that passes the tests before that of its keys, so that its entries can be read.
pub struct Page<'a> {
    branch: Branch,
    tree: Tree,
    layout: &'static Layout,
    bytes: &'a [u8],
}

impl<'a> Page<'a> {
    pub fn behind(
        branch: Branch,
        tree: Tree,
        layout: &'static Layout,
        file: &'a [u8],
    ) -> Option<Self> {
        let start = usize::try_from(branch.page.offset).ok()?;
        let bytes = file.get(start..start.checked_add(PAGE)?)?;
        let page = Self {
            branch,
            tree,
            layout,
            bytes,
        };
        let stands = start.is_multiple_of(STEP) && start >= FIRST_OFFSET;
        (stands && page.is_sealed() && page.is_counted()).then_some(page)
    }

    fn is_sealed(&self) -> bool {
        let PageReference { number, offset } = self.branch.page;
        let seal = Seal {
            kind: self.tree.kind(),
            number,
            signature: signature(offset, number),
        };
        self.layout.is_sealed(self.bytes, &seal)
    }

    /// Whether its level and counts are right. A root that is a leaf may have no entries.
    fn is_counted(&self) -> bool {
        let [count, room, size, level] = self.counts();
        let (entry_size, most) = self.tree.entries(level, self.layout);
        let least = u8::from(self.branch.level.is_some() || level > 0);
        self.branch.level.unwrap_or(level) == level
            && level <= MOST_LEVEL
            && size == entry_size
            && room <= most
            && (least..=room).contains(&count)
    }

    /// The count of its entries, the room for them, their size, and its level.
    fn counts(&self) -> [u8; 4] {
        [0, 1, 2, 3].map(|at| self.bytes[self.layout.counts + at])
    }

    pub fn offset(&self) -> u64 {
        self.branch.page.offset
    }

    pub fn level(&self) -> u8 {
        self.counts()[3]
    }

    pub fn count(&self) -> usize {
        self.counts()[0].into()
    }

    /// The keys that it may hold: from the first of these on, and below the second.
    pub fn range(&self) -> (u64, Option<u64>) {
        (self.branch.from, self.branch.to)
    }

    /// A field of an entry: the key is the first, and of an index entry a page's number and offset are
    /// the next two.
    fn field(&self, entry: usize, field: usize) -> u64 {
        let (size, _) = self.tree.entries(self.level(), self.layout);
        let width = self.layout.width;
        let start = entry * usize::from(size) + field * width;
        number_of(&self.bytes[start..start + width])
    }

    pub fn key(&self, entry: usize) -> Key {
        self.tree.key(self.field(entry, 0))
    }

    /// The branches to its children, from left to right; a leaf has none.
    pub fn children(&self) -> impl DoubleEndedIterator<Item = Branch> + '_ {
        let level = self.level().checked_sub(1);
        let count = level.map_or(0, |_| self.count());
        (0..count).map(move |entry| {
            let is_last = entry + 1 == count;
            Branch {
                page: PageReference {
                    number: self.field(entry, 1),
                    offset: self.field(entry, 2),
                },
                level,
                from: self.key(entry).compared,
                to: match is_last {
                    true => self.branch.to,
                    false => Some(self.key(entry + 1).compared),
                },
            }
        })
    }
}
