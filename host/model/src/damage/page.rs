//! Damage to a page of either tree.

use super::{Damage, Spoiler};
use crate::build::{without_bit_0, PlacedPage};
use crate::bytes::put;
use crate::page::Tree;

impl<'a> Spoiler<'a> {
    pub(super) fn spoil_page(&mut self, damage: Damage) {
        let Some(page) = self.page_for(damage) else {
            return;
        };
        let (offset, layout) = (page.offset, self.layout());
        let number = offset + layout.page.number;
        self.look_at(page.tree, &page.keys);
        match damage {
            Damage::PageKind => self.page_kind(offset + layout.page.kinds),
            Damage::PageNumber => self.flip(number, number + layout.width),
            Damage::PageByte => self.flip(offset, offset + layout.page.summed),
            Damage::PageLevel | Damage::EntrySize | Damage::PageRoom | Damage::PageCount => {
                self.page_counts(damage, offset);
            }
            Damage::PageBit0 => self.image[number] ^= 1,
            Damage::ChildNumber | Damage::ChildOffset | Damage::ChildGraft | Damage::ChildBit0 => {
                self.child(damage, page);
            }
            Damage::NodeData | Damage::DataBit0 | Damage::DataOne => self.node_data(damage, page),
            Damage::PageSignature | Damage::PageSum => {}
            Damage::KeyTwin | Damage::KeyBit0 | Damage::KeyAtLow | Damage::KeyAtEnd => {
                self.bit_0_of_keys(damage, page);
            }
            _ => self.keys(damage, page),
        }
        if self.sealed {
            self.layout().seal_page(&mut self.image, offset);
        }
        let [signature, sum] = [layout.page.signature, layout.page.sum].map(|at| offset + at);
        match damage {
            Damage::PageSignature => self.flip(signature, signature + 2),
            Damage::PageSum => self.flip(sum, sum + 4),
            _ => {}
        }
    }

    fn page_for(&mut self, damage: Damage) -> Option<&'a PlacedPage> {
        let roots_only = self.random.one_in(4);
        let fits = |page: &&'a PlacedPage| match damage {
            Damage::ChildNumber | Damage::ChildOffset | Damage::ChildGraft | Damage::ChildBit0 => {
                page.level > 0
            }
            Damage::NodeData | Damage::DataBit0 | Damage::DataOne => {
                page.tree == Tree::Nodes && page.level == 0
            }
            Damage::KeyEqual | Damage::KeySwap | Damage::KeyTwin => page.keys.len() > 1,
            Damage::KeyLow
            | Damage::KeyHigh
            | Damage::KeyUpperHalf
            | Damage::KeyBit0
            | Damage::KeyAtLow => !page.keys.is_empty(),
            Damage::KeyAtEnd => !page.keys.is_empty() && self.built.range_end(page) < u64::MAX,
            _ => true,
        };
        let chosen = |page: &&PlacedPage| !roots_only || page.is_root;
        let pages: Vec<_> = self
            .built
            .pages
            .iter()
            .filter(fits)
            .filter(chosen)
            .collect();
        self.random.pick(&pages).copied()
    }

    pub(super) fn look_at(&mut self, tree: Tree, keys: &[u64]) {
        let seen = match tree {
            Tree::Nodes => &mut self.nodes,
            Tree::Blocks => &mut self.blocks,
        };
        seen.extend_from_slice(keys);
    }

    fn page_kind(&mut self, kinds: usize) {
        let kind = self.random.one_of([0x80, 0x81, 0x84, 0]);
        match self.random.below(3) {
            0 => self.image[kinds] = kind,
            1 => self.image[kinds + 1] = kind,
            _ => put(&mut self.image, kinds, &[kind; 2]),
        }
    }

    fn page_counts(&mut self, damage: Damage, offset: usize) {
        let layout = self.layout();
        let [nodes, index] = [layout.node_leaf, layout.index];
        let [few, many] = [nodes.most as u8, index.most as u8];
        let [size, node_size] = [index.size as u8, nodes.size as u8];
        let most = [0, 1, few, few + 1, many, many + 1];
        let (at, edges) = match damage {
            Damage::PageCount => (0, most),
            Damage::PageRoom => (1, most),
            // 16 is an entry's size in one of the editions.
            Damage::EntrySize => (2, [size, node_size, 0, 16, size - 1, node_size - 1]),
            _ => (3, [0, 1, 6, 7, 8, 8]),
        };
        let place = offset + layout.page.counts + at;
        let now = self.image[place];
        self.image[place] = match self.random.below(4) {
            0 => now.wrapping_add(1),
            1 => now.wrapping_sub(1),
            2 => self.random.byte(),
            _ => self.random.one_of(edges),
        };
    }

    fn keys(&mut self, damage: Damage, page: &'a PlacedPage) {
        let layout = self.layout();
        let size = layout.entries(page.tree, page.level).size;
        let last = page.keys.len() - 1;
        let key_at = |at: usize| page.offset + at * size;
        match damage {
            Damage::KeyEqual => {
                let at = self.random.between(1, last);
                self.put_key(page, at, page.keys[at - 1]);
            }
            Damage::KeySwap => {
                let at = self.random.between(1, last);
                self.put_key(page, at - 1, page.keys[at]);
                self.put_key(page, at, page.keys[at - 1]);
            }
            Damage::KeyLow => {
                let (key, low) = (page.keys[0], self.built.range_low(page));
                let edges = [0, key.saturating_sub(1), key / 2, low, low.wrapping_sub(1)];
                let lower = self.random.one_of(edges);
                self.put_key(page, 0, lower);
            }
            Damage::KeyHigh => {
                let (key, end) = (page.keys[last], self.built.range_end(page));
                let edges = [u64::MAX, key.wrapping_add(1), key | key << 1, end, end - 1];
                let higher = self.random.one_of(edges);
                self.put_key(page, last, higher);
            }
            _ => {
                let key = key_at(self.random.between(0, last));
                self.flip(key + layout.width / 2, key + layout.width);
            }
        }
    }

    fn put_key(&mut self, page: &PlacedPage, at: usize, key: u64) {
        let layout = self.layout();
        let size = layout.entries(page.tree, page.level).size;
        layout.put_number(&mut self.image, page.offset + at * size, key);
    }

    /// Keys that are equal, to one another or to an end of the page's range, but for bit 0.
    fn bit_0_of_keys(&mut self, damage: Damage, page: &'a PlacedPage) {
        let last = page.keys.len() - 1;
        let (at, key) = match damage {
            Damage::KeyTwin => {
                let at = self.random.between(1, last);
                let key = page.keys[at - 1];
                self.put_key(page, at - 1, without_bit_0(key));
                (at, key | 1)
            }
            Damage::KeyAtLow => (0, self.built.range_low(page) ^ 1),
            Damage::KeyAtEnd => {
                let end = self.built.range_end(page);
                (last, end ^ self.random.below(2) as u64)
            }
            _ => {
                let at = self.random.between(0, last);
                (at, page.keys[at] ^ 1)
            }
        };
        self.put_key(page, at, key);
        self.look_at(page.tree, &[key, key ^ 1]);
    }

    fn child(&mut self, damage: Damage, page: &PlacedPage) {
        let layout = self.layout();
        let entry = page.offset + layout.index.size * self.random.below(page.keys.len());
        let [number, offset] = [1, 2].map(|field| entry + field * layout.width);
        match damage {
            Damage::ChildNumber => {
                let odd = self.odd_number(layout.number_at(&self.image, number));
                layout.put_number(&mut self.image, number, odd);
            }
            Damage::ChildOffset => {
                let odd = self.odd_offset(layout.number_at(&self.image, offset));
                layout.put_number(&mut self.image, offset, odd);
            }
            Damage::ChildBit0 => self.image[number] ^= 1,
            _ => self.graft(number),
        }
    }

    fn node_data(&mut self, damage: Damage, page: &PlacedPage) {
        if page.keys.is_empty() {
            return;
        }
        let at = self.random.below(page.keys.len());
        let layout = self.layout();
        let data = page.offset + layout.node_leaf.size * at + layout.width;
        let now = layout.number_at(&self.image, data);
        let odd = match damage {
            Damage::DataBit0 => now ^ 1,
            Damage::DataOne => 1,
            _ => self.odd_block(now),
        };
        layout.put_number(&mut self.image, data, odd);
        self.nodes.push(page.keys[at]);
    }
}
