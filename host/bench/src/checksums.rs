//! The checksum in three ways. The plain one, eight bytes at a time with the eight tables of 003, 5.3, is
//! the model's; the one with a single table is here.

use crate::{bytes, Case, Sides};

/// The two parts of the header's second checksum (471 and 45 bytes), all of it (516), a page (496); then
/// as long as blocks, and longer than any of them.
const LENGTHS: [usize; 7] = [45, 471, 496, 516, 4096, 8192, 1 << 20];

pub fn checksums(sides: Sides) -> Vec<Case> {
    let case = |length| case(sides, length);
    LENGTHS.into_iter().map(case).collect()
}

fn case(sides: Sides, length: usize) -> Case {
    let single = bytes(length);
    let input = format!("{length} bytes");
    Case::new("checksum", input, sides, |calls| {
        let bytes = bytes(length);
        move || (calls.checksum)(&bytes)
    })
    .with_one_table(move || one_table(&single).into())
}

static TABLE: [u32; 256] = table();

const fn table() -> [u32; 256] {
    let mut table = [0; 256];
    let mut byte = 0;
    while byte < 256 {
        let mut rest = byte as u32;
        let mut bit = 0;
        while bit < 8 {
            rest = (rest >> 1) ^ if rest & 1 == 1 { 0xEDB8_8320 } else { 0 };
            bit += 1;
        }
        table[byte] = rest;
        byte += 1;
    }
    table
}

fn one_table(bytes: &[u8]) -> u32 {
    bytes.iter().fold(0, |sum, &byte| {
        (sum >> 8) ^ TABLE[usize::from(sum as u8 ^ byte)]
    })
}
