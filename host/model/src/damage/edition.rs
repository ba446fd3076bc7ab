//! Damage by which one edition looks like the other, or passes its bounds by one.

use super::{Damage, Spoiler};
use crate::build::end::move_block;
use crate::build::{most_size_and_children, PlacedBlock};
use crate::bytes::{put, u16_at};
use crate::checksum::{checksum, signature};
use crate::edition::{Edition, Layout, Reference, VERSION};
use crate::page::{Tree, PAGE};

impl Spoiler<'_> {
    pub(super) fn spoil_edition(&mut self, damage: Damage) {
        match damage {
            Damage::OtherEdition
            | Damage::OtherSentinel
            | Damage::OtherRoots
            | Damage::OtherEnd => self.other_header(damage),
            Damage::OtherPage | Damage::OtherPageSum | Damage::EntriesOver => {
                self.other_page(damage);
            }
            _ => self.other_block(damage),
        }
    }

    fn other(&self) -> Edition {
        match self.built.edition {
            Edition::Bits64 => Edition::Bits32,
            Edition::Bits32 => Edition::Bits64,
        }
    }

    /// Fields of the header where the other edition has them: all of them, with a version of that edition,
    /// or some of them, with zeros in their own places.
    fn other_header(&mut self, damage: Damage) {
        let (own, other) = (self.layout(), self.other().layout());
        let fields = Fields::read(&self.image, own);
        if damage == Damage::OtherEdition {
            let version = match self.other() {
                Edition::Bits64 => 23,
                Edition::Bits32 => self.random.one_of([14_u16, 15]),
            };
            put(&mut self.image, VERSION, &version.to_le_bytes());
        } else {
            Fields::NONE.write(&mut self.image, own, damage);
        }
        fields.write(&mut self.image, other, damage);
        if self.sealed {
            self.seal_header();
        }
    }

    fn other_page(&mut self, damage: Damage) {
        let Some(page) = self.random.pick(&self.built.pages) else {
            return;
        };
        let (own, other) = (self.layout(), self.other().layout());
        self.look_at(page.tree, &page.keys);
        let bytes = &mut self.image[page.offset..page.offset + PAGE];
        match damage {
            Damage::EntriesOver => {
                let over = own.entries(page.tree, page.level).most as u8 + 1;
                let count = self.random.one_of([over, page.keys.len() as u8]);
                put(bytes, own.page.counts, &[count, over]);
            }
            Damage::OtherPage => page_end_as(bytes, own, other),
            _ => {}
        }
        if self.sealed && damage != Damage::OtherPage {
            self.layout().seal_page(&mut self.image, page.offset);
        }
        if damage == Damage::OtherPageSum {
            let bytes = &mut self.image[page.offset..page.offset + PAGE];
            let sum = checksum(&bytes[..other.page.summed]);
            put(bytes, own.page.sum, &sum.to_le_bytes());
        }
    }

    fn other_block(&mut self, damage: Damage) {
        let Some(block) = self.random.pick(&self.built.blocks) else {
            return;
        };
        self.look_at_block(block.number);
        match damage {
            Damage::SizeAboutMost => self.size_about_most(block),
            Damage::OtherTrailer => self.write_trailer(block, self.other().layout(), false),
            _ => self.write_trailer(block, self.layout(), true),
        }
    }

    /// A right trailer by that layout, number and checksum in the other order where they are exchanged.
    fn write_trailer(&mut self, block: &PlacedBlock, layout: &Layout, exchanged: bool) {
        let stored = block.offset..block.offset + usize::from(block.size);
        let sum = checksum(&self.image[stored]).to_le_bytes();
        let number = &block.number.to_le_bytes()[..layout.width];
        let signed = signature(block.offset as u64, block.number);
        let counts = [block.size, signed].map(u16::to_le_bytes).concat();
        let number_first = layout.trailer.number < layout.trailer.sum;
        let bytes = if number_first == exchanged {
            [&counts, &sum[..], number].concat()
        } else {
            [&counts, number, &sum[..]].concat()
        };
        let trailer = layout.trailer_at(block.offset, block.size);
        if trailer + bytes.len() <= self.image.len() {
            put(&mut self.image, trailer, &bytes);
        }
    }

    /// The block behind the image's last byte, right in all but perhaps its size, which is near the most
    /// of either edition; unsealed, its trailer has another size.
    fn size_about_most(&mut self, block: &PlacedBlock) {
        let Some((page, entry)) = self.built.listing(block.number) else {
            return;
        };
        let (least, _) = most_size_and_children(Edition::Bits64);
        let (most, _) = most_size_and_children(Edition::Bits32);
        let size = self.random.between(least - 1, most + 1) as u16;
        let layout = self.layout();
        let offset = move_block(&mut self.image, self.built, block);
        let room = layout.room(u32::from(size)) as usize;
        self.image.resize(offset + room, 0);
        self.put_size(entry, size);
        self.layout().seal_page(&mut self.image, page);
        self.layout()
            .seal_block(&mut self.image, offset, size, block.number);
        if !self.sealed {
            let trailer = layout.trailer_at(offset, size);
            self.flip(trailer, trailer + 2);
        }
        self.end_with_image();
    }
}

/// What a header says.
struct Fields {
    sentinel: [u8; 2],
    end: u64,
    /// Of the node tree and of the block tree.
    roots: [Reference; 2],
}

impl Fields {
    const NONE: Fields = Fields {
        sentinel: [0; 2],
        end: 0,
        roots: [Reference {
            number: 0,
            offset: 0,
        }; 2],
    };

    fn read(image: &[u8], layout: &Layout) -> Self {
        let sentinel = layout.header.sentinel;
        let root = |tree| layout.reference_at(image, layout.root(tree));
        Self {
            sentinel: [image[sentinel], image[sentinel + 1]],
            end: layout.number_at(image, layout.header.end),
            roots: [Tree::Nodes, Tree::Blocks].map(root),
        }
    }

    /// Those that the damage is to, or all.
    fn write(&self, image: &mut [u8], layout: &Layout, damage: Damage) {
        let all = damage == Damage::OtherEdition;
        if all || damage == Damage::OtherSentinel {
            put(image, layout.header.sentinel, &self.sentinel);
        }
        if all || damage == Damage::OtherRoots {
            layout.put_reference(image, layout.header.nodes, self.roots[0]);
            layout.put_reference(image, layout.header.blocks, self.roots[1]);
        }
        if all || damage == Damage::OtherEnd {
            layout.put_number(image, layout.header.end, self.end);
        }
    }
}

/// Puts counts, kinds, number, signature and checksum where the other edition has them.
fn page_end_as(bytes: &mut [u8], own: &Layout, other: &Layout) {
    let counts: Vec<u8> = bytes[own.page.counts..own.page.counts + 4].to_vec();
    let kinds: Vec<u8> = bytes[own.page.kinds..own.page.kinds + 2].to_vec();
    let number = own.number_at(bytes, own.page.number);
    let signed = u16_at(bytes, own.page.signature);
    put(bytes, other.page.counts, &counts);
    put(bytes, other.page.kinds, &kinds);
    put(bytes, other.page.signature, &signed.to_le_bytes());
    other.put_number(bytes, other.page.number, number);
    let sum = checksum(&bytes[..other.page.summed]);
    put(bytes, other.page.sum, &sum.to_le_bytes());
}
