//! All entries of a tree, also of one with pages that are refused.

use crate::source::Source;
use rekwonuda::{Block, BlockId, Node, NodeId, Refusal};

/// The entries in the order of their numbers, and in between each page that is refused, once. Behind
/// such a page the walk goes on with the first number for which the library does not refuse the same
/// place again. `next` answers the first entry from a number on, with its own number.
pub struct Walk<F> {
    next: F,
    from: Option<u64>,
    last: u64,
}

pub fn nodes(source: &Source) -> impl Iterator<Item = Result<Node, Refusal>> + '_ {
    let image = source.image();
    Walk {
        next: move |from| {
            let from = NodeId(from as u32);
            let entry = image.next_node(from)?.entry;
            Ok(entry.map(|node| (node.id.0.into(), node)))
        },
        from: Some(0),
        last: u64::from(u32::MAX),
    }
}

pub fn blocks(source: &Source) -> impl Iterator<Item = Result<Block, Refusal>> + '_ {
    let image = source.image();
    Walk {
        next: move |from| {
            let entry = image.next_block(BlockId(from))?.entry;
            Ok(entry.map(|block| (block.id.0, block)))
        },
        from: Some(0),
        last: u64::MAX,
    }
}

impl<T, F: Fn(u64) -> Result<Option<(u64, T)>, Refusal>> Walk<F> {
    /// The first number behind `from` for which that place is not refused.
    fn behind(&self, from: u64, place: u64) -> Option<u64> {
        let refuses = |number| (self.next)(number).is_err_and(|refusal| refusal.place == place);
        if from == self.last || refuses(self.last) {
            return None;
        }
        let (mut inside, mut behind) = (from, self.last);
        while behind - inside > 1 {
            let middle = inside + (behind - inside) / 2;
            if refuses(middle) {
                inside = middle;
            } else {
                behind = middle;
            }
        }
        Some(behind)
    }
}

impl<T, F: Fn(u64) -> Result<Option<(u64, T)>, Refusal>> Iterator for Walk<F> {
    type Item = Result<T, Refusal>;

    fn next(&mut self) -> Option<Self::Item> {
        let from = self.from.take()?;
        match (self.next)(from) {
            Ok(found) => {
                let (number, entry) = found?;
                self.from = (number < self.last).then(|| number + 1);
                Some(Ok(entry))
            }
            Err(refusal) => {
                self.from = self.behind(from, refusal.place);
                Some(Err(refusal))
            }
        }
    }
}

#[cfg(test)]
mod tests {
    use super::*;
    use rekwonuda::Fault;

    /// Entries at 10, 20, 30 and 90; what lies in 20 to 39 and in 50 to 79 is refused.
    fn pages(from: u64) -> Result<Option<(u64, u64)>, Refusal> {
        let refused = |place| {
            Err(Refusal {
                fault: Fault::PageChecksum,
                place,
                more: 0,
            })
        };
        match from {
            0..=10 => Ok(Some((10, 10))),
            11..=39 => refused(1),
            40..=45 => Ok(Some((45, 45))),
            46..=79 => refused(2),
            80..=90 => Ok(Some((90, 90))),
            _ => Ok(None),
        }
    }

    #[test]
    fn a_walk_goes_on_behind_what_is_refused() {
        let walk = Walk {
            next: pages,
            from: Some(0),
            last: u64::MAX,
        };
        let seen: Vec<_> = walk
            .map(|entry| entry.map_err(|refusal| refusal.place))
            .collect();
        assert_eq!(seen, [Ok(10), Err(1), Ok(45), Err(2), Ok(90)]);
    }

    #[test]
    fn a_walk_ends_where_all_that_follows_is_refused() {
        let refuse = |from: u64| match from {
            0..=3 => Ok(Some((3, ()))),
            _ => Err(Refusal {
                fault: Fault::HeaderChecksum,
                place: 4,
                more: 0,
            }),
        };
        let walk = Walk {
            next: refuse,
            from: Some(0),
            last: u64::from(u32::MAX),
        };
        assert_eq!(walk.count(), 2);
    }
}
