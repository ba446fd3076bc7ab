//! Damage to where the file ends: to the end-of-file number, or by what stands behind it.

use super::{Damage, Spoiler};
use crate::build::end::{move_block, move_page};
use crate::build::PlacedPage;
use crate::header::LEAST_IMAGE;
use crate::page::{FIRST_OFFSET, PAGE, STEP};

/// Fewer bytes than this hang on behind the end of a file.
const MOST_HANGING: usize = 1500;

impl<'a> Spoiler<'a> {
    pub(super) fn spoil_end(&mut self, damage: Damage) {
        match damage {
            Damage::EndBelow => self.end_below(),
            Damage::EndAbove => self.end_above(),
            Damage::EndNearPage => self.end_near_page(),
            Damage::HangingOn => self.hang_on(),
            Damage::PageBehind => self.page_behind(),
            _ => self.block_behind(),
        }
    }

    pub(super) fn end_with_image(&mut self) {
        let end = self.image.len() as u64;
        self.layout().put_end(&mut self.image, end);
        self.seal_header();
    }

    fn end_at(&mut self, end: u64) {
        self.layout().put_end(&mut self.image, end);
        if self.sealed {
            self.seal_header();
        }
    }

    fn end_below(&mut self) {
        let length = self.image.len();
        let end = match self.random.below(7) {
            0 => 0,
            1 => self.random.one_of([1, LEAST_IMAGE - 1, LEAST_IMAGE]),
            2 => FIRST_OFFSET as usize,
            3 => length - 1,
            4 => length - STEP as usize,
            5 => self.random.between(FIRST_OFFSET as usize, length - 1),
            _ => self.random.below(length),
        };
        self.end_at(end as u64);
    }

    fn end_above(&mut self) {
        let length = self.image.len() as u64;
        let end = match self.random.below(6) {
            0 | 1 => length + 1,
            2 => length + STEP,
            3 => length | 1 << self.random.between(31, 63),
            4 => u64::MAX,
            _ => length + 1 + self.random.number() % (u64::MAX - length),
        };
        self.end_at(end);
    }

    /// The end of a page, or a little before it.
    fn end_near_page(&mut self) {
        let Some(page) = self.any_page() else {
            return;
        };
        let end = (page.offset + PAGE) as u64;
        let near = self.near(page.offset as u64, end);
        self.look_at(page.tree, &page.keys);
        self.end_at(near);
    }

    /// Zeros, bytes of no meaning, or old copies of pages and blocks.
    fn hang_on(&mut self) {
        let length = 1 + self.random.below(MOST_HANGING);
        match self.random.below(3) {
            0 => self.image.resize(self.image.len() + length, 0),
            1 => {
                let bytes = self.random.bytes(length);
                self.image.extend_from_slice(&bytes);
            }
            _ => self.hang_copies_on(),
        }
    }

    fn hang_copies_on(&mut self) {
        for _ in 0..self.random.between(1, 4) {
            let start = self.image.len().next_multiple_of(STEP as usize);
            self.image.resize(start, 0);
            let built = self.built;
            let pages = built.pages.iter().map(|page| page.offset);
            let blocks = built.blocks.iter().map(|block| block.offset);
            let offsets: Vec<_> = pages.chain(blocks).collect();
            let from = self.random.pick(&offsets).copied().unwrap_or(0);
            let to = built.image.len().min(from + PAGE);
            self.image.extend_from_within(from..to);
        }
    }

    fn any_page(&mut self) -> Option<&'a PlacedPage> {
        self.random.pick(&self.built.pages)
    }

    /// A page that is sound but for its place. Now and then the root above it comes with it, which then
    /// stands nearer to the image's end.
    fn page_behind(&mut self) {
        let Some(page) = self.any_page() else {
            return;
        };
        self.look_at(page.tree, &page.keys);
        let old_end = self.image.len() as u64;
        let mut start = move_page(&mut self.image, self.built, page);
        let mut roots = self.built.pages.iter().filter(|other| other.is_root);
        let root = roots.find(|root| root.tree == page.tree);
        if let Some(root) = root.filter(|_| !page.is_root && self.random.one_in(4)) {
            start = move_page(&mut self.image, self.built, root);
        }
        self.end_within(old_end, start);
    }

    /// Blocks that are sound but for their place.
    fn block_behind(&mut self) {
        let old_end = self.image.len() as u64;
        let mut last = None;
        for _ in 0..self.random.between(1, 3) {
            let Some(block) = self.random.pick(&self.built.blocks) else {
                return;
            };
            self.look_at_block(block.number);
            last = Some(move_block(&mut self.image, self.built, block));
        }
        if let Some(start) = last {
            self.end_within(old_end, start);
        }
    }

    /// Puts the end into or before what was moved last, which starts there, but behind all that stood in
    /// the image before; mostly some bytes hang on behind what was moved.
    fn end_within(&mut self, old_end: u64, start: usize) {
        let stop = self.image.len() as u64;
        let end = match self.random.below(3) {
            0 => old_end,
            _ => self.near(start as u64, stop),
        };
        if !self.random.one_in(3) {
            self.hang_on();
        }
        self.end_at(end);
    }

    /// Where something ends that starts there, or up to all of it before that.
    fn near(&mut self, start: u64, stop: u64) -> u64 {
        let steps = self.random.between(1, ((stop - start) / STEP) as usize) as u64;
        match self.random.below(6) {
            0 | 1 => stop,
            2 => stop - 1,
            3 => stop - STEP,
            4 => start,
            _ => stop - STEP * steps,
        }
    }
}
