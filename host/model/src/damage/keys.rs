//! Damage to the keys of a page: to their order, to their range, or to both.

use super::{Damage, Spoiler};
use crate::build::PlacedPage;
use crate::bytes::put;
use crate::page::Tree;
use std::collections::BTreeMap;

/// The least step between keys that differ in both trees.
const STEP: u64 = 2;

/// The keys just outside a page's range, where there are any.
#[derive(Clone, Copy)]
struct Outside {
    below: Option<u64>,
    above: Option<u64>,
}

impl Outside {
    fn is_none(self) -> bool {
        self.below.is_none() && self.above.is_none()
    }
}

impl<'a> Spoiler<'a> {
    pub(super) fn spoil_keys(&mut self, damage: Damage) {
        let Some(page) = self.page_of_any_sort(damage) else {
            return;
        };
        let outside = self.outside(page);
        let mut keys = page.keys.clone();
        match damage {
            Damage::KeyOrder => self.order(page, &mut keys),
            Damage::KeyStale => self.stale(outside, &mut keys),
            Damage::KeyBelow => self.below(outside, &mut keys),
            Damage::OrderThenRange => self.order_then_range(outside, &mut keys),
            _ => self.range_then_order(outside, &mut keys),
        }
        self.put_keys(page, &keys);
        self.look_at(page.tree, &page.keys);
        self.look_at(page.tree, &keys);
    }

    /// Each sort of page that fits comes up as often as another, however few there are of it.
    fn page_of_any_sort(&mut self, damage: Damage) -> Option<&'a PlacedPage> {
        let mut sorts = BTreeMap::<_, Vec<_>>::new();
        for page in &self.built.pages {
            if self.fits(damage, page) {
                sorts.entry(self.sort(page)).or_default().push(page);
            }
        }
        let sorts: Vec<_> = sorts.into_values().collect();
        let pages = self.random.pick(&sorts)?;
        self.random.pick(pages).copied()
    }

    /// Tree, root or not, index or leaf, and whether every fault has room there: a page with a middle
    /// entry and keys above its range.
    fn sort(&self, page: &'a PlacedPage) -> (Tree, bool, bool, bool) {
        let roomy = page.keys.len() > 2 && self.outside(page).above.is_some();
        (page.tree, page.is_root, page.level > 0, roomy)
    }

    fn fits(&self, damage: Damage, page: &'a PlacedPage) -> bool {
        let count = page.keys.len();
        if count == 0 {
            return false;
        }
        let outside = self.outside(page);
        match damage {
            Damage::KeyOrder => count > 1,
            Damage::KeyStale => !outside.is_none(),
            Damage::KeyBelow => count > 1 && outside.below.is_some(),
            Damage::OrderThenRange => count > 2 && !outside.is_none(),
            _ => count > 1 && !outside.is_none(),
        }
    }

    fn outside(&self, page: &'a PlacedPage) -> Outside {
        let key = |number| page.tree.key(number);
        let end = Some(self.built.range_end(page)).filter(|&end| end < u64::MAX);
        // Above a range there is room for a page of keys and a few more.
        let room = STEP * (self.layout().index.most as u64 + 4);
        let highest = key(self.layout().highest()) - room;
        Outside {
            below: key(self.built.range_low(page)).checked_sub(STEP),
            above: end.map(key).filter(|&end| end <= highest),
        }
    }

    /// Either end is drawn as often as all entries between them.
    fn entry(&mut self, first: usize, last: usize) -> usize {
        match self.random.below(3) {
            0 => first,
            1 => last,
            _ if first + 1 < last => self.random.between(first + 1, last - 1),
            _ => self.random.between(first, last),
        }
    }

    /// A key above the range, at its end or a little further.
    fn above(&mut self, end: u64) -> u64 {
        end + STEP * self.random.below(3) as u64
    }

    /// A key of the range that is not above the one before it.
    fn order(&mut self, page: &'a PlacedPage, keys: &mut [u64]) {
        let at = self.entry(1, keys.len() - 1);
        let any_before = keys[self.random.below(at)];
        let low = self.built.range_low(page);
        keys[at] = self.random.one_of([keys[at - 1], any_before, low]);
    }

    /// From an entry on the keys lie above the range, or up to an entry below it: they ascend.
    fn stale(&mut self, outside: Outside, keys: &mut [u64]) {
        let at = self.entry(0, keys.len() - 1);
        let lowest = |below: &u64| below.checked_sub(STEP * at as u64);
        let below = outside.below.as_ref().and_then(lowest);
        match (below, outside.above) {
            (Some(below), above) if above.is_none() || self.random.one_in(4) => {
                ascend(&mut keys[..=at], below);
            }
            (_, Some(end)) => {
                let above = self.above(end);
                ascend(&mut keys[at..], above);
            }
            _ => {}
        }
    }

    /// One key that is below the range, and so below the key before it.
    fn below(&mut self, outside: Outside, keys: &mut [u64]) {
        let at = self.entry(1, keys.len() - 1);
        keys[at] = self.random.one_of([0, outside.below.unwrap_or(0)]);
    }

    fn order_then_range(&mut self, outside: Outside, keys: &mut [u64]) {
        let last = keys.len() - 1;
        let order = self.entry(1, last - 1);
        let range = self.entry(order + 1, last);
        keys[order] = keys[order - 1];
        keys[range] = match (outside.below, outside.above) {
            (Some(below), above) if above.is_none() || self.random.one_in(2) => below,
            (_, end) => self.above(end.unwrap_or(0)),
        };
    }

    /// The first key below the range and a later one equal to that before it; or a key above the range,
    /// with the next key, of the range, behind it.
    fn range_then_order(&mut self, outside: Outside, keys: &mut [u64]) {
        let last = keys.len() - 1;
        match (outside.below, outside.above) {
            (Some(below), above) if above.is_none() || self.random.one_in(3) => {
                let order = self.entry(1, last);
                keys[0] = below;
                keys[order] = keys[order - 1];
            }
            (_, end) => {
                let range = self.entry(0, last - 1);
                keys[range] = self.above(end.unwrap_or(0));
            }
        }
    }

    /// The high half of a node's number stays as it is.
    fn put_keys(&mut self, page: &PlacedPage, keys: &[u64]) {
        let layout = self.layout();
        let size = layout.entries(page.tree, page.level).size;
        let width = match page.tree {
            Tree::Nodes => 4,
            Tree::Blocks => layout.width,
        };
        for (at, key) in keys.iter().enumerate() {
            let bytes = &key.to_le_bytes()[..width];
            put(&mut self.image, page.offset + at * size, bytes);
        }
        if self.sealed {
            self.layout().seal_page(&mut self.image, page.offset);
        }
    }
}

fn ascend(keys: &mut [u64], from: u64) {
    for (at, key) in keys.iter_mut().enumerate() {
        *key = from + STEP * at as u64;
    }
}
