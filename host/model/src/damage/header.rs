//! Damage to the header.

use super::{Damage, Spoiler};
use crate::build::seal::seal_header;
use crate::bytes::put;
use crate::edition::{Reference, VERSION};
use crate::page::Tree;

/// Those of the two editions, and others, next to them and further off.
const VERSIONS: [u16; 12] = [14, 15, 22, 24, 36, 0x1700, 14, 13, 16, 23, 23, 0x0E00];

/// Where a header of 64 bits has its second checksum, and nothing counts in one of 32.
const FULL_SUM: usize = 524;

impl Spoiler<'_> {
    pub(super) fn spoil_header(&mut self, damage: Damage) {
        let layout = self.layout();
        let root = layout.root(self.random.one_of([Tree::Nodes, Tree::Blocks]));
        let sentinel = layout.header.sentinel;
        match damage {
            Damage::Magic => self.flip(0, 4),
            Damage::ClientMagic => self.flip(8, 10),
            Damage::Version => {
                let version = self.random.one_of(VERSIONS);
                put(&mut self.image, VERSION, &version.to_le_bytes());
            }
            Damage::HeaderByte => self.flip(12, 564),
            Damage::Sentinel => self.flip(sentinel, sentinel + 1),
            Damage::Method => {
                let method = self.random.one_of([3, 4, 0x10, 0x80, 0xFF]);
                self.image[sentinel + 1] = method;
            }
            Damage::RootNumber => {
                let odd = self.odd_number(layout.number_at(&self.image, root));
                layout.put_number(&mut self.image, root, odd);
            }
            Damage::RootOffset => {
                let offset = root + layout.width;
                let odd = self.odd_offset(layout.number_at(&self.image, offset));
                layout.put_number(&mut self.image, offset, odd);
            }
            Damage::RootGraft => self.graft(root),
            Damage::RootBit0 => self.image[root] ^= 1,
            _ => {}
        }
        if self.sealed {
            self.seal_header();
        }
        match damage {
            Damage::PartialSum => self.flip(4, 8),
            Damage::FullSum => self.flip(FULL_SUM, FULL_SUM + 4),
            _ => {}
        }
    }

    /// By the edition as built, and by that of the version that stands there now.
    pub(super) fn seal_header(&mut self) {
        self.layout().seal_header(&mut self.image);
        seal_header(&mut self.image);
    }

    /// Makes a reference name some other page of the image.
    pub(super) fn graft(&mut self, at: usize) {
        let Some(page) = self.random.pick(&self.built.pages) else {
            return;
        };
        let layout = self.built.layout();
        let reference = Reference {
            number: layout.number_at(&self.image, page.offset + layout.page.number),
            offset: page.offset as u64,
        };
        layout.put_reference(&mut self.image, at, reference);
    }
}
