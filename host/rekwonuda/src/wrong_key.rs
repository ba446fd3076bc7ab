//! The entry of a page whose key is at fault, and what the page may hold. The proved calls hand out the
//! page's offset and the entry's index; all else is read here, from the page and from those above it.

use crate::page::{Page, Tree};
use crate::pages::Walk;
use crate::{Fault, Image, Refusal};
use std::iter::FusedIterator;

/// The key of an entry.
///
/// ```
/// use rekwonuda::{checksum, Image, Key};
///
/// let mut bytes = std::fs::read("../../samples/office.pst")?;
/// let page = 0xB000; // the second leaf of the block tree
/// bytes[page] = 0x51; // the key of its first entry, 0x54
/// let sum = checksum(&bytes[page..page + 496]);
/// bytes[page + 500..page + 504].copy_from_slice(&sum.to_le_bytes());
/// let wrong = Image::new(&bytes).wrong_block_keys().next().expect("a key is at fault");
/// assert_eq!(wrong.key, Key { stored: 0x51, compared: 0x50 });
/// # Ok::<(), std::io::Error>(())
/// ```
#[derive(Clone, Copy, Debug, PartialEq, Eq, Hash)]
pub struct Key {
    /// All its bytes, as they stand in the page: eight, in a 32-bit file four.
    pub stored: u64,
    /// What of them is compared: in the node tree the low four bytes, in the block tree all but bit 0.
    pub compared: u64,
}

/// The first entry of a page whose key is at fault, by [`Fault::KeyOrder`] or [`Fault::KeyRange`], and
/// the range of keys that the page may hold.
///
/// This is told by this crate and not by the proved library.
///
/// ```
/// use rekwonuda::{checksum, Image};
///
/// let mut bytes = std::fs::read("../../samples/office.pst")?;
/// let page = 0xB800; // the second leaf of the node tree
/// bytes[page] = 0x2C; // the low byte of its first key, 0x802D
/// let sum = checksum(&bytes[page..page + 496]);
/// bytes[page + 500..page + 504].copy_from_slice(&sum.to_le_bytes());
/// let image = Image::new(&bytes);
/// let refusal = image.check_nodes().unwrap_err();
/// let wrong = image.wrong_node_key(&refusal).expect("a key is at fault");
/// assert_eq!((wrong.entry, wrong.key.compared), (0, 0x802C));
/// assert_eq!((wrong.from, wrong.to), (0x802D, Some(0x80A2)));
/// # Ok::<(), std::io::Error>(())
/// ```
#[non_exhaustive]
#[derive(Clone, Copy, Debug, PartialEq, Eq)]
pub struct WrongKey {
    /// Which of the two faults.
    pub fault: Fault,
    /// The offset of the page.
    pub page: u64,
    /// The level of the page, 0 for a leaf.
    pub level: u8,
    /// How many entries the page has.
    pub entries: usize,
    /// The index of the entry at fault, from 0.
    pub entry: usize,
    /// Its key.
    pub key: Key,
    /// The key of the entry before it; `None` for the first.
    pub before: Option<Key>,
    /// The lowest key that the page may hold, as keys are compared; 0 in a root page.
    pub from: u64,
    /// The lowest key above those that the page may hold; `None` where the range has no upper end.
    pub to: Option<u64>,
}

impl WrongKey {
    /// The refusal that names this entry.
    #[must_use]
    pub fn refusal(&self) -> Refusal {
        Refusal {
            fault: self.fault,
            place: self.page,
            more: self.entry as u64,
        }
    }
}

impl<'a> Image<'a> {
    /// The entry of the node tree that a refusal by [`Fault::KeyOrder`] or [`Fault::KeyRange`] names;
    /// `None` for a refusal by another fault, or of another image or tree, and where
    /// [`Image::wrong_node_keys`] ends before it.
    ///
    /// A page may be referred to from several places, and has a range of its own under each. Of those
    /// under which it is refused in just this way the first is told, in the order of
    /// [`Image::check_nodes`]: of a refusal of that check it is the one that was met. A refusal of a
    /// lookup may have come from a later one; its entry and keys are the same then, and its range is
    /// another. A lookup of [`WrongKey::from`] meets the page under just the range that is told, and is
    /// refused in just this way.
    #[must_use]
    pub fn wrong_node_key(&self, refusal: &Refusal) -> Option<WrongKey> {
        named_by(refusal, self.wrong_node_keys())
    }

    /// The entry of the block tree that a refusal names, as by [`Image::wrong_node_key`].
    #[must_use]
    pub fn wrong_block_key(&self, refusal: &Refusal) -> Option<WrongKey> {
        named_by(refusal, self.wrong_block_keys())
    }

    /// All pages of the node tree whose keys are at fault, each with its first such entry, in the order
    /// of [`Image::check_nodes`]. What is refused otherwise is passed over, and below a page that is
    /// refused nothing is looked at. Behind as many references as there are offsets for a page in the
    /// file it ends: an accepted tree has no more.
    pub fn wrong_node_keys(&self) -> WrongKeys<'a> {
        WrongKeys::new(*self, Tree::Nodes)
    }

    /// All pages of the block tree whose keys are at fault, as by [`Image::wrong_node_keys`].
    pub fn wrong_block_keys(&self) -> WrongKeys<'a> {
        WrongKeys::new(*self, Tree::Blocks)
    }
}

fn named_by(refusal: &Refusal, mut wrong_keys: WrongKeys<'_>) -> Option<WrongKey> {
    match refusal.fault {
        Fault::KeyOrder | Fault::KeyRange => wrong_keys.find(|wrong| wrong.refusal() == *refusal),
        _ => None,
    }
}

/// All pages of a tree whose keys are at fault, from [`Image::wrong_node_keys`] or
/// [`Image::wrong_block_keys`].
///
/// ```
/// use rekwonuda::Image;
///
/// let bytes = std::fs::read("../../samples/office.pst")?;
/// assert_eq!(Image::new(&bytes).wrong_block_keys().count(), 0);
/// # Ok::<(), std::io::Error>(())
/// ```
#[derive(Clone, Debug)]
#[must_use = "an iterator does nothing until it is gone through"]
pub struct WrongKeys<'a>(Walk<'a>);

impl<'a> WrongKeys<'a> {
    fn new(image: Image<'a>, tree: Tree) -> Self {
        Self(Walk::new(image, tree))
    }
}

impl Iterator for WrongKeys<'_> {
    type Item = WrongKey;

    fn next(&mut self) -> Option<Self::Item> {
        self.0.find_map(|met| met.wrong_key)
    }
}

impl FusedIterator for WrongKeys<'_> {}

impl Page<'_> {
    /// The first entry at fault. At each entry its order comes before its range.
    pub fn wrong_key(&self) -> Option<WrongKey> {
        let (from, to) = self.range();
        let fault = |entry: usize| {
            let key = self.key(entry).compared;
            let before = entry.checked_sub(1).map(|before| self.key(before));
            if before.is_some_and(|before| key <= before.compared) {
                return Some(Fault::KeyOrder);
            }
            let is_inside = from <= key && to.is_none_or(|to| key < to);
            (!is_inside).then_some(Fault::KeyRange)
        };
        let mut entries = 0..self.count();
        let (entry, fault) = entries.find_map(|entry| Some((entry, fault(entry)?)))?;
        Some(WrongKey {
            fault,
            page: self.offset(),
            level: self.level(),
            entries: self.count(),
            entry,
            key: self.key(entry),
            before: entry.checked_sub(1).map(|before| self.key(before)),
            from,
            to,
        })
    }
}
