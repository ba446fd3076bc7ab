//! In which page and at which entry a call met keys at fault, and whether the page's keys break the
//! other rule as well.

use model::edition::Edition;
use model::header::file;
use model::page::{Page, Sought, Tree};
use model::tree::root_of;
use model::Refusal;
use std::fmt;

#[derive(Clone, Copy, PartialEq, Eq, PartialOrd, Ord, Debug)]
pub enum Role {
    Root,
    /// Neither root nor leaf.
    Index,
    /// A leaf that is no root.
    Leaf,
}

#[derive(Clone, Copy, PartialEq, Eq, PartialOrd, Ord, Debug)]
pub enum Rule {
    Order,
    Range,
}

#[derive(Clone, Copy, PartialEq, Eq, PartialOrd, Ord, Debug)]
pub enum Position {
    /// Also where it is the only one.
    First,
    Middle,
    Last,
}

/// Where the page breaks the other rule; the same entry counts before a later one.
#[derive(Clone, Copy, PartialEq, Eq, PartialOrd, Ord, Debug)]
pub enum Other {
    Nowhere,
    SameEntry,
    Later,
}

#[derive(Clone, Copy, PartialEq, Eq, PartialOrd, Ord, Debug)]
pub struct KeyFault {
    pub edition: Edition,
    pub tree: Tree,
    pub role: Role,
    pub rule: Rule,
    pub position: Position,
    pub other: Other,
}

impl Rule {
    pub fn of(number: u64) -> Option<Self> {
        match number {
            11 => Some(Rule::Order),
            21 => Some(Rule::Range),
            _ => None,
        }
    }

    pub fn number(self) -> u64 {
        match self {
            Rule::Order => 11,
            Rule::Range => 21,
        }
    }
}

impl KeyFault {
    /// None of any other refusal.
    pub fn of(image: &[u8], refusal: Refusal) -> Option<Self> {
        let rule = Rule::of(refusal.number)?;
        let header = model::header(image).ok()?;
        [Tree::Nodes, Tree::Blocks].into_iter().find_map(|tree| {
            let root = root_of(&header, tree);
            let (sought, page) = refused_page(file(image), tree, root, refusal)?;
            let at = refusal.more as usize;
            Some(KeyFault {
                edition: header.edition,
                tree,
                role: role(&sought, &page),
                rule,
                position: position(at, page.count),
                other: other(&page, rule, at),
            })
        })
    }

    pub fn all_that_can_occur() -> impl Iterator<Item = KeyFault> {
        let kinds = [Rule::Order, Rule::Range].into_iter().flat_map(entries);
        kinds
            .flat_map(|(rule, position, other)| {
                pages().map(move |(edition, tree, role)| KeyFault {
                    edition,
                    tree,
                    role,
                    rule,
                    position,
                    other,
                })
            })
            .filter(|fault| fault.can_occur())
    }

    pub fn can_occur(self) -> bool {
        let fits_the_rule = match self.rule {
            // The first entry has none before it.
            Rule::Order => self.position != Position::First,
            // At one entry order is tested before range.
            Rule::Range => self.other != Other::SameEntry,
        };
        let fits_the_page = match self.role {
            // A root's range is everything.
            Role::Root => self.rule == Rule::Order && self.other == Other::Nowhere,
            Role::Index | Role::Leaf => true,
        };
        // No entry comes behind the last.
        let fits_the_entry = self.position != Position::Last || self.other != Other::Later;
        fits_the_rule && fits_the_page && fits_the_entry
    }
}

fn pages() -> impl Iterator<Item = (Edition, Tree, Role)> {
    let roles = [Role::Root, Role::Index, Role::Leaf];
    let trees = Edition::BOTH
        .into_iter()
        .flat_map(|edition| [Tree::Nodes, Tree::Blocks].map(|tree| (edition, tree)));
    trees.flat_map(move |(edition, tree)| roles.map(|role| (edition, tree, role)))
}

fn entries(rule: Rule) -> impl Iterator<Item = (Rule, Position, Other)> {
    let others = [Other::Nowhere, Other::SameEntry, Other::Later];
    let positions = [Position::First, Position::Middle, Position::Last];
    positions
        .into_iter()
        .flat_map(move |position| others.map(|other| (rule, position, other)))
}

/// The page that is refused just so. One page may be reached twice, with different ranges.
fn refused_page(
    file: &[u8],
    tree: Tree,
    sought: Sought,
    refusal: Refusal,
) -> Option<(Sought, Page<'_>)> {
    let page = Page::shaped(file, tree, sought).ok()?;
    if let Err(fault) = page.check_keys() {
        return (fault == refusal).then_some((sought, page));
    }
    let mut children = (0..page.count).filter_map(|at| page.child(at));
    children.find_map(|child| refused_page(file, tree, child, refusal))
}

fn role(sought: &Sought, page: &Page) -> Role {
    match (sought.level, page.level) {
        (None, _) => Role::Root,
        (_, 0) => Role::Leaf,
        _ => Role::Index,
    }
}

fn position(at: usize, count: usize) -> Position {
    if at == 0 {
        Position::First
    } else if at + 1 == count {
        Position::Last
    } else {
        Position::Middle
    }
}

fn other(page: &Page, rule: Rule, at: usize) -> Other {
    let breaks = |entry| match rule {
        Rule::Order => page.breaks_range(entry),
        Rule::Range => page.breaks_order(entry),
    };
    if breaks(at) {
        Other::SameEntry
    } else if (at + 1..page.count).any(breaks) {
        Other::Later
    } else {
        Other::Nowhere
    }
}

impl fmt::Display for KeyFault {
    fn fmt(&self, f: &mut fmt::Formatter) -> fmt::Result {
        let position = format!("{:?}", self.position).to_lowercase();
        write!(f, "{} {position}", self.rule.number())?;
        match (self.other, self.rule) {
            (Other::Nowhere, _) => Ok(()),
            (Other::SameEntry, _) => write!(f, " and range"),
            (Other::Later, Rule::Order) => write!(f, ", then range"),
            (Other::Later, Rule::Range) => write!(f, ", then order"),
        }
    }
}
