//! The growing image.

use super::Plan;
use crate::bytes::put;
use crate::edition::{Edition, Layout, VERSION};
use crate::page::FIRST_OFFSET;
use crate::random::Random;

pub struct Space {
    pub bytes: Vec<u8>,
    pub layout: &'static Layout,
    pub random: Random,
    /// No gaps, no stale bytes, plain numbers.
    pub tidy: bool,
    loose_bit_0: bool,
}

impl Space {
    pub fn new(seed: u64, plan: &Plan) -> Self {
        let mut space = Self {
            bytes: Vec::new(),
            layout: plan.edition.layout(),
            random: Random::new(seed),
            tidy: plan.tidy,
            loose_bit_0: plan.loose_bit_0,
        };
        space.bytes = space.fresh(FIRST_OFFSET as usize);
        let version = space.version(plan.edition);
        put(&mut space.bytes, VERSION, &version.to_le_bytes());
        space
    }

    /// The edition of 32 bits has two.
    fn version(&mut self, edition: Edition) -> u16 {
        match edition {
            Edition::Bits64 => 23,
            Edition::Bits32 if self.tidy => 14,
            Edition::Bits32 => self.random.one_of([14, 15]),
        }
    }

    /// Any number that a field has room for.
    pub fn any_number(&mut self) -> u64 {
        self.random.number() & self.layout.highest()
    }

    /// Bytes that no rule looks at: zeros, or in an untidy image sometimes anything.
    pub fn fresh(&mut self, length: usize) -> Vec<u8> {
        if self.tidy || self.random.one_in(2) {
            vec![0; length]
        } else {
            self.random.bytes(length)
        }
    }

    /// A block's number as one place has it: where bit 0 is loose, it is drawn for that place.
    pub fn loosen(&mut self, number: u64) -> u64 {
        if self.loose_bit_0 && self.random.one_in(2) {
            number ^ 1
        } else {
            number
        }
    }

    /// The offset of new bytes at the image's end.
    pub fn take(&mut self, length: usize) -> usize {
        let gap = if !self.tidy && self.random.one_in(8) {
            64
        } else {
            0
        };
        let step = if self.tidy && length == 512 { 512 } else { 64 };
        let offset = (self.bytes.len() + gap).next_multiple_of(step);
        self.bytes.resize(offset, 0);
        let fresh = self.fresh(length);
        self.bytes.extend_from_slice(&fresh);
        offset
    }
}
