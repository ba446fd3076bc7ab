//! The checksum of 003, 5.3, eight bytes at a time: its eight tables, and every length and alignment
//! beside a checksum that goes bit by bit.

use model::checksum;
use model::checksum::extend;
use model::random::Random;

fn bit_by_bit(start: u32, bytes: &[u8]) -> u32 {
    let mut sum = start;
    for byte in bytes {
        sum ^= u32::from(*byte);
        for _ in 0..8 {
            sum = (sum >> 1) ^ (0xEDB8_8320 * (sum & 1));
        }
    }
    sum
}

/// What 003, 5.3 prints in its tables `CrcTableOffset32`, 40, and so on to 88, of each the entries 1, 37,
/// 128 and 254. In each row of `CrcTableOffset56` the last entry stands in second place there.
const PUBLISHED: [[u32; 4]; 8] = [
    [0x7707_3096, 0x4B04_D447, 0xEDB8_8320, 0x5A05_DF1B],
    [0x191B_3141, 0xE8F3_D0E7, 0x3B83_984B, 0x8A3F_CC33],
    [0x01C2_6A37, 0x3E86_840B, 0xE135_1B80, 0xBF5A_5EDA],
    [0xB8BC_6765, 0x97EC_5F0C, 0xED59_B63B, 0x66B9_6194],
    [0x3D60_29B0, 0x0921_A074, 0xB1E6_B092, 0xF704_EE3C],
    [0xCB5C_D3A5, 0x5761_9485, 0x1EB0_14D8, 0x2F98_7869],
    [0xA677_0BB4, 0x9D85_163B, 0x8816_EAF2, 0x3441_4184],
    [0xCCAA_009E, 0xB196_6C32, 0x533B_85DA, 0xEAE1_0678],
];

/// A byte alone among zeros, with so many of them behind it.
fn alone(byte: u8, zeros: usize) -> [u8; 8] {
    let mut eight = [0; 8];
    eight[7 - zeros] = byte;
    eight
}

/// In eight bytes of which all but one are 0, the sum is that byte's entry in the table for its place.
#[test]
fn published_entries() {
    for (zeros, entries) in PUBLISHED.iter().enumerate() {
        for (byte, entry) in [1, 37, 128, 254].into_iter().zip(entries) {
            let eight = alone(byte, zeros);
            assert_eq!(checksum(&eight), *entry, "{eight:x?}");
        }
    }
}

#[test]
fn every_entry() {
    for zeros in 0..8 {
        for byte in 0..=255 {
            let eight = alone(byte, zeros);
            assert_eq!(checksum(&eight), bit_by_bit(0, &eight), "{eight:x?}");
        }
    }
}

#[test]
fn every_length_and_alignment() {
    let bytes = Random::new(1).bytes(800);
    let unaligned = bytes.as_ptr().align_offset(16);
    for start in [0, 1, 0x8000_0000, 0xFFFF_FFFF, 0x1234_5678] {
        for alignment in 0..16 {
            let bytes = &bytes[unaligned + alignment..];
            for length in 0..=700 {
                let part = &bytes[..length];
                assert_eq!(
                    extend(start, part),
                    bit_by_bit(start, part),
                    "{length} bytes from {start:#x}, alignment {alignment}"
                );
            }
        }
    }
}

/// Wherever bytes are cut, the checksum goes on over the second part.
#[test]
fn every_cut() {
    let bytes = Random::new(2).bytes(100);
    let whole = bit_by_bit(0, &bytes);
    for cut in 0..=bytes.len() {
        let (left, right) = bytes.split_at(cut);
        assert_eq!(extend(checksum(left), right), whole, "cut at {cut}");
    }
}
