//! The proved checksum beside one that goes bit by bit, over every length and alignment; what the
//! comparison has to meet in checksums, and of which parts they are drawn.

use compare::checksums::{Met, Part};
use compare::tally::Tally;
use model::random::Random;
use rekwonuda_sys as proved;
use std::collections::BTreeSet;

fn bit_by_bit(bytes: &[u8]) -> u64 {
    let mut sum = 0;
    for byte in bytes {
        sum ^= u64::from(*byte);
        for _ in 0..8 {
            sum = (sum >> 1) ^ (0xEDB8_8320 * (sum & 1));
        }
    }
    sum
}

/// So many bytes that begin at a multiple of 16 in memory.
fn on_aligned(length: usize, test: impl Fn(&[u8])) {
    let bytes = Random::new(1).bytes(length + 16);
    let from = bytes.as_ptr().align_offset(16);
    test(&bytes[from..from + length]);
}

#[test]
fn every_length_and_alignment() {
    on_aligned(316, |bytes| {
        for alignment in 0..16 {
            for length in 0..=300 {
                let part = &bytes[alignment..alignment + length];
                assert_eq!(
                    proved::checksum(part),
                    bit_by_bit(part),
                    "{length} bytes, alignment {alignment}"
                );
            }
        }
    });
}

/// Each of eight bytes has a table of its own, and every entry of it is asked for.
#[test]
fn every_byte_in_every_place() {
    for place in 0..16 {
        for byte in 0..=255 {
            let mut bytes = [0; 16];
            bytes[place] = byte;
            assert_eq!(proved::checksum(&bytes), bit_by_bit(&bytes), "{bytes:x?}");
        }
    }
}

#[test]
fn what_has_to_be_met() {
    let all: BTreeSet<_> = Met::all().collect();
    assert_eq!(all.len(), 8 + 8 + 16);
    let words: BTreeSet<_> = all.iter().map(ToString::to_string).collect();
    assert_eq!(words.len(), all.len());
    assert_eq!(Tally::default().checksums_not_reached().len(), all.len());
}

#[test]
fn what_is_met() {
    use Met::*;
    on_aligned(64, |bytes| {
        assert_eq!(Met::in_call(&bytes[..0]), [Short(0)]);
        assert_eq!(Met::in_call(&bytes[3..3]), [Short(0)]);
        assert_eq!(Met::in_call(&bytes[..1]), [Short(1), Alignment(0)]);
        assert_eq!(Met::in_call(&bytes[15..22]), [Short(7), Alignment(15)]);
        assert_eq!(Met::in_call(&bytes[16..24]), [Rest(0), Alignment(0)]);
        assert_eq!(Met::in_call(&bytes[9..24]), [Rest(7), Alignment(9)]);
        assert_eq!(Met::in_call(&bytes[1..50]), [Rest(1), Alignment(1)]);
    });
}

#[test]
fn parts() {
    let bytes = [1, 2, 3, 4, 5];
    let of = |from, length| Part { from, length }.of(&bytes);
    assert_eq!(of(0, 5), bytes);
    assert_eq!(of(1, 2), [2, 3]);
    assert_eq!(of(3, 9), [4, 5]);
    assert_eq!(of(5, 1), []);
    assert_eq!(of(8, 1), []);
    assert_eq!(Part::WHOLE.of(&bytes), bytes);
}

#[test]
fn parts_that_are_drawn() {
    let mut random = Random::new(1);
    let bytes = vec![0; 816];
    let parts: Vec<_> = (0..20_000)
        .map(|_| Part::draw(bytes.len(), &mut random))
        .collect();
    let lengths: BTreeSet<_> = parts.iter().map(|part| part.of(&bytes).len()).collect();
    assert!((0..=81).all(|length| lengths.contains(&length)));
    assert!(lengths.is_superset(&[127, 128, 129, 799, 800].into()));
    let starts: BTreeSet<_> = parts.iter().map(|part| part.from).collect();
    assert_eq!(starts, (0..16).collect());
}
