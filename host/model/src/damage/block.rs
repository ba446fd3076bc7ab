//! Damage to a block, to its listing in the BBT, or to a data tree.

use super::{Damage, Spoiler};
use crate::block::is_internal;
use crate::build::end::move_block;
use crate::build::{most_size_and_children, without_bit_0, PlacedBlock};
use crate::bytes::put;
use crate::checksum::signature;
use crate::coding::encode;

impl<'a> Spoiler<'a> {
    pub(super) fn spoil_block(&mut self, damage: Damage) {
        let Some(block) = self.block_for(damage) else {
            return;
        };
        let layout = self.layout();
        self.look_at_block(block.number);
        match damage {
            Damage::ListedOffset | Damage::ListedSize => self.listed(damage, block),
            Damage::ListedBit0 => self.listed_bit_0(block),
            Damage::Resize => {
                let size = self.random.between(1, usize::from(block.size));
                self.resize(block, size as u16);
            }
            Damage::TreeShort => {
                let size = self.random.between(1, usize::from(block.size).min(9));
                self.resize(block, size as u16);
            }
            Damage::MoveToEnd => self.move_to_end(block),
            Damage::TrailerSize => self.trailer(block, 0, 2),
            Damage::TrailerSignature => self.trailer(block, 2, 2),
            Damage::TrailerSum => self.trailer(block, layout.trailer.sum, 4),
            Damage::TrailerNumber => self.trailer(block, layout.trailer.number, layout.width),
            Damage::TrailerBit0 | Damage::TrailerBits => self.trailer_bits(damage, block),
            Damage::SignatureBit0 => self.signature_bit_0(block),
            Damage::CodedBit0 => self.coded_bit_0(block),
            _ => self.stored(damage, block),
        }
    }

    fn block_for(&mut self, damage: Damage) -> Option<&'a PlacedBlock> {
        let built = self.built;
        let fits = |block: &&PlacedBlock| match damage {
            Damage::TreeMark
            | Damage::TreeLevel
            | Damage::TreeCount
            | Damage::TreeSum
            | Damage::TreeChild
            | Damage::TreeShort
            | Damage::TreeBit0 => built.trees.contains_key(&block.number),
            Damage::CodedBit0 => !is_internal(block.number),
            _ => true,
        };
        let blocks: Vec<_> = built.blocks.iter().filter(fits).collect();
        self.random.pick(&blocks).copied()
    }

    /// The block, and every node that its bytes or its numbers belong to.
    pub(super) fn look_at_block(&mut self, number: u64) {
        self.blocks.push(number);
        let built = self.built;
        let same = |other: &u64| without_bit_0(*other) == without_bit_0(number);
        let users = built
            .nodes
            .iter()
            .filter(|node| same(&node.data) || built.parts(node).iter().any(same));
        self.nodes.extend(users.map(|node| u64::from(node.node)));
    }

    fn listed(&mut self, damage: Damage, block: &PlacedBlock) {
        let Some((page, entry)) = self.built.listing(block.number) else {
            return;
        };
        let layout = self.layout();
        if damage == Damage::ListedOffset {
            let odd = self.odd_offset(block.offset as u64);
            layout.put_number(&mut self.image, entry + layout.width, odd);
        } else {
            let (most, _) = most_size_and_children(self.built.edition);
            let near = [
                block.size.wrapping_sub(1),
                block.size + 1,
                0,
                most as u16,
                most as u16 + 1,
                u16::MAX,
            ];
            let odd = self.random.one_of(near);
            self.put_size(entry, odd);
        }
        if self.sealed {
            self.layout().seal_page(&mut self.image, page);
        }
    }

    /// The size in the block's listing.
    pub(super) fn put_size(&mut self, entry: usize, size: u16) {
        let place = entry + 2 * self.layout().width;
        put(&mut self.image, place, &size.to_le_bytes());
    }

    /// A smaller block in the same place, right in itself where it is sealed.
    fn resize(&mut self, block: &PlacedBlock, size: u16) {
        let Some((page, entry)) = self.built.listing(block.number) else {
            return;
        };
        self.put_size(entry, size);
        self.layout().seal_page(&mut self.image, page);
        if self.sealed {
            self.layout()
                .seal_block(&mut self.image, block.offset, size, block.number);
        }
    }

    /// The block so that its room ends with the image, and the file too; unsealed, one byte of the room is
    /// cut off.
    fn move_to_end(&mut self, block: &PlacedBlock) {
        move_block(&mut self.image, self.built, block);
        if !self.sealed {
            self.image.pop();
        }
        self.end_with_image();
    }

    /// The listed number, and where it is sealed the trailer too.
    fn listed_bit_0(&mut self, block: &PlacedBlock) {
        let Some((page, entry)) = self.built.listing(block.number) else {
            return;
        };
        self.image[entry] ^= 1;
        self.layout().seal_page(&mut self.image, page);
        if self.sealed {
            self.layout()
                .seal_block(&mut self.image, block.offset, block.size, block.number ^ 1);
        }
    }

    /// Bit 0 of the trailer's number, alone or with another bit.
    fn trailer_bits(&mut self, damage: Damage, block: &PlacedBlock) {
        let layout = self.layout();
        let number = self.trailer_of(block) + layout.trailer.number;
        let mut odd = layout.number_at(&self.image, number) ^ 1;
        if damage == Damage::TrailerBits {
            odd ^= 1 << self.random.between(1, 8 * layout.width - 1);
        }
        layout.put_number(&mut self.image, number, odd);
    }

    /// The signature of the number with bit 0 the other way.
    fn signature_bit_0(&mut self, block: &PlacedBlock) {
        let odd = signature(block.offset as u64, block.number ^ 1);
        let at = self.trailer_of(block) + 2;
        put(&mut self.image, at, &odd.to_le_bytes());
    }

    /// The bytes encoded under the number with bit 0 the other way.
    fn coded_bit_0(&mut self, block: &PlacedBlock) {
        let mut stored = block.data.clone();
        encode(self.built.method, block.number ^ 1, &mut stored).expect("a method of 0 to 2");
        put(&mut self.image, block.offset, &stored);
        if self.sealed {
            self.layout()
                .seal_block(&mut self.image, block.offset, block.size, block.number);
        }
    }

    pub(super) fn trailer_of(&self, block: &PlacedBlock) -> usize {
        self.layout().trailer_at(block.offset, block.size)
    }

    /// Changes a field of so many bytes.
    fn trailer(&mut self, block: &PlacedBlock, field: usize, length: usize) {
        let start = self.trailer_of(block) + field;
        self.flip(start, start + length);
    }

    fn stored(&mut self, damage: Damage, block: &PlacedBlock) {
        let (at, size) = (block.offset, usize::from(block.size));
        let layout = self.layout();
        let children = (size.max(8) - 8) / layout.width;
        match damage {
            Damage::TreeMark => self.flip(at, at + 1),
            Damage::TreeLevel => self.flip(at + 1, at + 2),
            Damage::TreeCount => {
                let count = children as u16;
                let most = most_size_and_children(self.built.edition).1 as u16;
                let near = [0, count - 1, count + 1, most, most + 1, u16::MAX];
                let odd = self.random.one_of(near);
                put(&mut self.image, at + 2, &odd.to_le_bytes());
            }
            Damage::TreeSum => self.flip(at + 4, at + 8),
            Damage::TreeChild => {
                let child = at + 8 + layout.width * self.random.below(children);
                let odd = self.odd_block(layout.number_at(&self.image, child));
                layout.put_number(&mut self.image, child, odd);
            }
            Damage::TreeBit0 => {
                let child = at + 8 + layout.width * self.random.below(children);
                self.image[child] ^= 1;
            }
            _ => self.flip(at, at + size),
        }
        if self.sealed {
            self.layout()
                .seal_block(&mut self.image, at, block.size, block.number);
        }
    }

    /// A block number that is not the right one in its place.
    pub(super) fn odd_block(&mut self, now: u64) -> u64 {
        let other = self
            .random
            .pick(&self.built.blocks)
            .map_or(4, |block| block.number);
        match self.random.below(6) {
            0 => 0,
            1 => 1,
            2 => now ^ 2,
            3 | 4 => other,
            _ => self.odd_number(now),
        }
    }
}
