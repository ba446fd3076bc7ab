//! Named kinds of damage to a built image, to a heap, and to a table. Together they reach every refusal.
//!
//! Each kind comes unsealed, so that a checksum over the damage no longer fits, and sealed, so that
//! only the rule behind the checksum can tell.

/// An enum of kinds, and a list of those of each group.
macro_rules! kinds {
    ($(#[$doc:meta])* $name:ident { $($group:ident [$($kind:ident),* $(,)?])* }) => {
        $(#[$doc])*
        #[derive(Clone, Copy, PartialEq, Eq, Debug)]
        pub enum $name {
            $($($kind,)*)*
        }

        $(pub const $group: &[$name] = &[$($name::$kind),*];)*
    };
}

mod block;
mod edition;
mod end;
mod header;
pub mod heap;
mod keys;
mod page;
pub mod table;

use crate::build::Built;
use crate::edition::Layout;
use crate::header::LEAST_IMAGE;
use crate::random::Random;

kinds! {
    Damage {
        WHOLE [
            AnyByte,
            Cut,
        ]
        HEADER [
            Magic,
            ClientMagic,
            Version,
            PartialSum,
            FullSum,
            HeaderByte,
            Sentinel,
            Method,
            RootNumber,
            RootOffset,
            RootGraft,
            RootBit0,
        ]
        PAGE [
            PageKind,
            PageNumber,
            PageSignature,
            PageSum,
            PageByte,
            PageLevel,
            EntrySize,
            PageRoom,
            PageCount,
            KeyEqual,
            KeySwap,
            KeyLow,
            KeyHigh,
            KeyUpperHalf,
            ChildNumber,
            ChildOffset,
            ChildGraft,
            NodeData,
            KeyTwin,
            KeyBit0,
            KeyAtLow,
            KeyAtEnd,
            PageBit0,
            ChildBit0,
            DataBit0,
            DataOne,
        ]
        KEYS [
            KeyOrder,
            KeyStale,
            KeyBelow,
            OrderThenRange,
            RangeThenOrder,
        ]
        BLOCK [
            ListedOffset,
            ListedSize,
            Resize,
            MoveToEnd,
            BlockByte,
            TrailerSize,
            TrailerSignature,
            TrailerNumber,
            TrailerSum,
            TreeMark,
            TreeLevel,
            TreeCount,
            TreeSum,
            TreeChild,
            TreeShort,
            ListedBit0,
            TrailerBit0,
            TrailerBits,
            SignatureBit0,
            CodedBit0,
            TreeBit0,
        ]
        END [
            EndBelow,
            EndAbove,
            EndNearPage,
            HangingOn,
            PageBehind,
            BlockBehind,
        ]
        EDITION [
            OtherEdition,
            OtherSentinel,
            OtherRoots,
            OtherEnd,
            OtherPage,
            OtherPageSum,
            EntriesOver,
            OtherTrailer,
            TrailerExchanged,
            SizeAboutMost,
        ]
    }
}

use Damage::*;

/// A damaged image, with nodes and blocks whose answers the damage may change.
#[derive(Clone, Debug)]
pub struct Spoilt {
    pub image: Vec<u8>,
    pub nodes: Vec<u64>,
    pub blocks: Vec<u64>,
}

/// A damage that finds nothing to act on leaves the image as it is.
pub fn spoil(built: &Built, damage: Damage, sealed: bool, random: &mut Random) -> Spoilt {
    let mut spoiler = Spoiler::new(built, built.image.clone(), sealed, random);
    spoiler.act(damage);
    spoiler.finish()
}

/// A second damage on top of the first.
pub fn spoil_again(
    built: &Built,
    spoilt: Spoilt,
    damage: Damage,
    sealed: bool,
    random: &mut Random,
) -> Spoilt {
    if spoilt.image.len() < built.image.len() {
        return spoilt;
    }
    let mut spoiler = Spoiler::new(built, spoilt.image, sealed, random);
    spoiler.nodes = spoilt.nodes;
    spoiler.blocks = spoilt.blocks;
    spoiler.act(damage);
    spoiler.finish()
}

struct Spoiler<'a> {
    built: &'a Built,
    image: Vec<u8>,
    sealed: bool,
    random: &'a mut Random,
    nodes: Vec<u64>,
    blocks: Vec<u64>,
}

impl<'a> Spoiler<'a> {
    fn new(built: &'a Built, image: Vec<u8>, sealed: bool, random: &'a mut Random) -> Self {
        Self {
            built,
            image,
            sealed,
            random,
            nodes: Vec::new(),
            blocks: Vec::new(),
        }
    }

    fn layout(&self) -> &'static Layout {
        self.built.layout()
    }

    fn finish(self) -> Spoilt {
        Spoilt {
            image: self.image,
            nodes: self.nodes,
            blocks: self.blocks,
        }
    }

    fn act(&mut self, damage: Damage) {
        if HEADER.contains(&damage) {
            self.spoil_header(damage);
        } else if PAGE.contains(&damage) {
            self.spoil_page(damage);
        } else if KEYS.contains(&damage) {
            self.spoil_keys(damage);
        } else if BLOCK.contains(&damage) {
            self.spoil_block(damage);
        } else if END.contains(&damage) {
            self.spoil_end(damage);
        } else if EDITION.contains(&damage) {
            self.spoil_edition(damage);
        } else if damage == Cut {
            self.cut();
        } else {
            let end = self.image.len();
            self.flip(0, end);
        }
    }

    /// Changes one byte of a stretch.
    fn flip(&mut self, start: usize, end: usize) {
        let at = self.random.between(start, end - 1);
        self.image[at] ^= 1 << self.random.below(8);
    }

    /// Sealed, the file ends where the image is cut off.
    fn cut(&mut self) {
        let length = self.image.len();
        let at = match self.random.below(6) {
            0 => self.random.one_of([0, 1, 563, 564, 565, 0x4400, 0x4401]),
            1 => length - 1,
            2 => length - 64,
            3 => self.random.between(0x4400, length) / 64 * 64,
            _ => self.random.below(length),
        };
        self.image.truncate(at);
        if self.sealed && at >= LEAST_IMAGE {
            self.end_with_image();
        }
    }

    /// An offset that is mostly not allowed for a page or a block.
    fn odd_offset(&mut self, now: u64) -> u64 {
        let length = self.image.len() as u64;
        match self.random.below(10) {
            0 => now.wrapping_add(1 << self.random.below(6)),
            1 => now.wrapping_add(64),
            2 => now.wrapping_sub(64),
            3 => 0x43C0,
            4 => length & !63,
            5 => (length & !63).wrapping_sub(448),
            6 => u64::MAX - 63,
            7 => now | 1 << (5 * self.layout().width),
            8 => 0,
            _ => self.random.number(),
        }
    }

    /// A number near another, or far from it.
    fn odd_number(&mut self, now: u64) -> u64 {
        match self.random.below(4) {
            0 => now.wrapping_add(1),
            1 => now ^ 1 << self.random.below(8 * self.layout().width),
            2 => self.random.below(64) as u64,
            _ => self.random.number(),
        }
    }
}
