//! The marked cases of 01, "Both sides of each line", and worked bytes of 003, 5.2.

use model::{checksum, decode, encode, item, room, signature, Refusal};

#[test]
fn room_of_a_block() {
    let cases = [(1, 64), (48, 64), (49, 128), (4092, 4160), (8176, 8192)];
    for (size, expected) in cases {
        assert_eq!(room(size), expected, "size {size}");
    }
    assert_eq!(room(u32::MAX), (1 << 32) + 64);
}

#[test]
fn signature_of_offset_and_number() {
    assert_eq!(signature(0x0090_8A00, 0x1518), 0x9F88);
    assert_eq!(signature(0x1234_5678_9ABC, 0x1234_5678_9ABC), 0);
    assert_eq!(signature(1 << 32, 0), 0);
}

#[test]
fn checksum_of_bytes() {
    assert_eq!(checksum(&[]), 0);
    assert_eq!(checksum(&[0]), 0);
    assert_eq!(checksum(&[1]), 0x7707_3096);
    assert_eq!(checksum(&[0x80]), 0xEDB8_8320);
}

/// A heap of so many empty items: header, then the map.
fn empty_items(items: usize) -> Vec<u8> {
    let mut block = vec![12, 0, 0xEC, 0xBC, 0, 0, 0, 0, 0, 0, 0, 0];
    block.extend_from_slice(&(items as u16).to_le_bytes());
    block.extend_from_slice(&[0, 0]);
    block.extend((0..=items).flat_map(|_| [12, 0]));
    block
}

#[test]
fn item_numbers() {
    let block = empty_items(2047);
    for number in [0x20, 0xFFE0] {
        let item = item(&block, number).expect("an item");
        assert_eq!((item.start, item.length), (12, 0));
    }
    for number in [0, 0x21, 0x1_0020] {
        assert_eq!(item(&block, number), Err(Refusal::new(19, 0)));
    }
    assert_eq!(item(&empty_items(1), 0x40), Err(Refusal::new(19, 0)));
    assert_eq!(item(&empty_items(2048), 0x20), Err(Refusal::new(18, 0)));
}

#[test]
fn cyclic_steps() {
    let cases: [(u64, &[u8], &[u8]); 3] = [
        (
            0,
            &[0, 1, 2, 3, 4, 5, 6, 7],
            &[0xB9, 0xA3, 0xB8, 0x8D, 0x69, 0xDB, 0x1A, 0xC5],
        ),
        (0x1518, &[0, 0, 0, 0], &[0x37, 0x3B, 0x97, 0x6F]),
        // w wraps from 65,535 to 0 after the first byte.
        (0xFFFF, &[0, 0, 0, 0], &[0x17, 0xB9, 0x32, 0xA2]),
    ];
    for (block, plain, stored) in cases {
        let mut bytes = plain.to_vec();
        assert_eq!(encode(2, block, &mut bytes), Ok(()));
        assert_eq!(bytes, stored, "block {block:x}");
        assert_eq!(decode(2, block | 1 << 40, &mut bytes), Ok(()));
        assert_eq!(bytes, plain, "block {block:x}");
    }
}

#[test]
fn permute_steps() {
    let plain: Vec<u8> = (0..=255).collect();
    let mut bytes = plain.clone();
    assert_eq!(encode(1, 0, &mut bytes), Ok(()));
    assert_eq!(bytes[..4], [0x41, 0x36, 0x13, 0x62]);
    assert_eq!(decode(1, 7, &mut bytes), Ok(()));
    assert_eq!(bytes, plain);
}

#[test]
fn methods_over_two() {
    for method in [3, 255] {
        let mut bytes = [1, 2, 3];
        assert_eq!(encode(method, 4, &mut bytes), Err(Refusal::new(5, 0)));
        assert_eq!(decode(method, 4, &mut []), Err(Refusal::new(5, 0)));
        assert_eq!(bytes, [1, 2, 3]);
    }
}
