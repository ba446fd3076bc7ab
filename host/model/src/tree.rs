//! Whole-tree check, lookup and listing (01, Pages and trees). `file` is an image up to where the file
//! ends, under a header that has been accepted.

use crate::header::{file, header, Header};
use crate::page::{Page, Range, Sought, Tree};
use crate::refusal::Answer;

/// The answer of a lookup or listing, with the number of pages read.
#[derive(Clone, Copy, PartialEq, Eq, Debug)]
pub enum Lookup<T> {
    Found { pages: u64, entry: T },
    Absent { pages: u64 },
}

impl<T> Lookup<T> {
    pub fn found(self) -> Option<T> {
        match self {
            Lookup::Found { entry, .. } => Some(entry),
            Lookup::Absent { .. } => None,
        }
    }

    pub(crate) fn map<U>(self, read: impl FnOnce(T) -> U) -> Lookup<U> {
        match self {
            Lookup::Found { pages, entry } => Lookup::Found {
                pages,
                entry: read(entry),
            },
            Lookup::Absent { pages } => Lookup::Absent { pages },
        }
    }
}

pub fn check_nodes(image: &[u8]) -> Answer<()> {
    let header = header(image)?;
    check_under(file(image), Tree::Nodes, root_of(&header, Tree::Nodes))
}

pub fn check_blocks(image: &[u8]) -> Answer<()> {
    let header = header(image)?;
    check_under(file(image), Tree::Blocks, root_of(&header, Tree::Blocks))
}

/// The root page that an accepted header names.
pub fn root_of(header: &Header, tree: Tree) -> Sought {
    Sought {
        layout: header.edition.layout(),
        reference: match tree {
            Tree::Nodes => header.nodes,
            Tree::Blocks => header.blocks,
        },
        level: None,
        range: Range::ALL,
    }
}

/// The page, then its children from left to right, each with everything under it.
fn check_under(file: &[u8], tree: Tree, sought: Sought) -> Answer<()> {
    let page = Page::check(file, tree, sought)?;
    for child in (0..page.count).filter_map(|at| page.child(at)) {
        check_under(file, tree, child)?;
    }
    Ok(())
}

/// The leaf entry whose key equals the key sought, by its one path.
pub(crate) fn find<'a>(
    file: &'a [u8],
    header: &Header,
    tree: Tree,
    number: u64,
) -> Answer<Lookup<&'a [u8]>> {
    let key = tree.key(number);
    let mut sought = root_of(header, tree);
    let mut pages = 0;
    loop {
        let page = Page::check(file, tree, sought)?;
        pages += 1;
        let Some(at) = page.last_at_most(key) else {
            return Ok(Lookup::Absent { pages });
        };
        let Some(child) = page.child(at) else {
            return Ok(if page.key(at) == key {
                let entry = page.entry(at);
                Lookup::Found { pages, entry }
            } else {
                Lookup::Absent { pages }
            });
        };
        sought = child;
    }
}

/// The first leaf entry whose key is at least `from`, which is compared with the keys as it stands.
pub(crate) fn next<'a>(
    file: &'a [u8],
    header: &Header,
    tree: Tree,
    from: u64,
) -> Answer<Lookup<&'a [u8]>> {
    let mut pages = 0;
    let entry = next_under(file, tree, root_of(header, tree), from, &mut pages)?;
    Ok(match entry {
        Some(entry) => Lookup::Found { pages, entry },
        None => Lookup::Absent { pages },
    })
}

fn next_under<'a>(
    file: &'a [u8],
    tree: Tree,
    sought: Sought,
    from: u64,
    pages: &mut u64,
) -> Answer<Option<&'a [u8]>> {
    let page = Page::check(file, tree, sought)?;
    *pages += 1;
    if page.level == 0 {
        return Ok(page.first_at_least(from).map(|at| page.entry(at)));
    }
    let start = page.last_at_most(from).unwrap_or(0);
    for child in (start..page.count).filter_map(|at| page.child(at)) {
        if let Some(entry) = next_under(file, tree, child, from, pages)? {
            return Ok(Some(entry));
        }
    }
    Ok(None)
}
