//! The pages that a tree refers to, from its root down. The proved calls check trees and look up entries
//! in them; where the pages stand is read here.

use crate::layout::Layout;
use crate::page::{Branch, Page, Tree, STEP};
use crate::{Edition, Image, PageReference, WrongKey};
use std::iter::FusedIterator;

/// A page that a tree refers to, from [`Image::node_pages`] or [`Image::block_pages`].
///
/// This is told by this crate and not by the proved library.
///
/// ```
/// use rekwonuda::Image;
///
/// let bytes = std::fs::read("../../samples/office.pst")?;
/// let root = Image::new(&bytes).block_pages().next().expect("each tree has a root");
/// assert_eq!((root.number, root.offset, root.level), (515, 46_080, Some(1)));
/// # Ok::<(), std::io::Error>(())
/// ```
#[non_exhaustive]
#[derive(Clone, Copy, Debug, PartialEq, Eq)]
pub struct TreePage {
    /// Its number.
    pub number: u64,
    /// Its offset in the image.
    pub offset: u64,
    /// Its level, 0 for a leaf; `None` where no page can stand there, or one that fails a test of
    /// [`Image::check_nodes`] or [`Image::check_blocks`].
    pub level: Option<u8>,
}

impl<'a> Image<'a> {
    /// All pages that the node tree refers to, in the order of [`Image::check_nodes`]. Below a page whose
    /// level is `None` nothing is looked at. Behind as many references as there are offsets for a page in
    /// the file it ends: an accepted tree has no more. Where the header is refused there is none.
    ///
    /// ```
    /// use rekwonuda::Image;
    ///
    /// let bytes = std::fs::read("../../samples/office.pst")?;
    /// let pages: Vec<u64> = Image::new(&bytes).node_pages().map(|page| page.offset).collect();
    /// assert_eq!(pages, [0xBE00, 0xB600, 0xB800, 0xBA00, 0xBC00]);
    /// # Ok::<(), std::io::Error>(())
    /// ```
    pub fn node_pages(&self) -> TreePages<'a> {
        TreePages(Walk::new(*self, Tree::Nodes))
    }

    /// All pages that the block tree refers to, as by [`Image::node_pages`].
    pub fn block_pages(&self) -> TreePages<'a> {
        TreePages(Walk::new(*self, Tree::Blocks))
    }
}

/// All pages that a tree refers to, from [`Image::node_pages`] or [`Image::block_pages`].
///
/// ```
/// use rekwonuda::Image;
///
/// let bytes = std::fs::read("../../samples/mini.img")?;
/// let mut pages = Image::new(&bytes).node_pages();
/// let refused = pages.find(|page| page.level.is_none()).expect("one page is of another kind");
/// assert_eq!(refused.offset, 26_624);
/// # Ok::<(), std::io::Error>(())
/// ```
#[derive(Clone, Debug)]
#[must_use = "an iterator does nothing until it is gone through"]
pub struct TreePages<'a>(Walk<'a>);

impl Iterator for TreePages<'_> {
    type Item = TreePage;

    fn next(&mut self) -> Option<Self::Item> {
        let met = self.0.next()?;
        Some(TreePage {
            number: met.page.number,
            offset: met.page.offset,
            level: met.level,
        })
    }
}

impl FusedIterator for TreePages<'_> {}

/// What stands behind a reference.
pub struct Met {
    page: PageReference,
    /// The level of a page that passes all tests.
    level: Option<u8>,
    /// Of a page that passes all tests but that of its keys.
    pub wrong_key: Option<WrongKey>,
}

/// The references of a tree, each followed where the page with it passes all tests.
#[derive(Clone, Debug)]
pub struct Walk<'a> {
    /// The file, without what hangs on behind it.
    bytes: &'a [u8],
    tree: Tree,
    layout: &'static Layout,
    /// The branches to be followed, the next one last.
    ahead: Vec<Branch>,
    /// How many more are followed. The pages that a check accepts all stand at offsets of their own, so
    /// that as many branches as there are offsets lead to its first fault.
    left: usize,
}

impl<'a> Walk<'a> {
    pub fn new(image: Image<'a>, tree: Tree) -> Self {
        let file = image.file();
        let root = file.map(|(header, _)| Branch::root(tree.root(&header)));
        let edition = file.map_or(Edition::Bits64, |(header, _)| header.edition);
        let bytes = file.map_or(&[][..], |(_, bytes)| bytes);
        Self {
            bytes,
            tree,
            layout: Layout::of(edition),
            ahead: root.into_iter().collect(),
            left: bytes.len() / STEP,
        }
    }
}

impl Iterator for Walk<'_> {
    type Item = Met;

    fn next(&mut self) -> Option<Self::Item> {
        self.left = self.left.checked_sub(1)?;
        let branch = self.ahead.pop()?;
        let page = Page::behind(branch, self.tree, self.layout, self.bytes);
        let wrong_key = page.as_ref().and_then(Page::wrong_key);
        let sound = page.filter(|_| wrong_key.is_none());
        if let Some(page) = &sound {
            self.ahead.extend(page.children().rev());
        }
        Some(Met {
            page: branch.page,
            level: sound.map(|page| page.level()),
            wrong_key,
        })
    }
}
