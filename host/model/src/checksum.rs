//! Checksum and signature (01, Header; 003, 5.3 and 5.5).

use crate::bytes::u32_at;

const POLYNOMIAL: u32 = 0xEDB8_8320;

/// Those of 003, 5.3, from `CrcTableOffset32` to `CrcTableOffset88`. The first has the checksum of each byte
/// alone, each of the others that of the byte with one zero byte more behind it.
static TABLES: [[u32; 256]; 8] = tables();

const fn tables() -> [[u32; 256]; 8] {
    let mut tables = [[0; 256]; 8];
    let mut byte = 0;
    while byte < 256 {
        tables[0][byte] = bits_shifted_out(byte as u32);
        byte += 1;
    }
    let mut table = 1;
    while table < 8 {
        let mut byte = 0;
        while byte < 256 {
            let before: u32 = tables[table - 1][byte];
            tables[table][byte] = (before >> 8) ^ tables[0][(before & 0xFF) as usize];
            byte += 1;
        }
        table += 1;
    }
    tables
}

const fn bits_shifted_out(byte: u32) -> u32 {
    let mut rest = byte;
    let mut bit = 0;
    while bit < 8 {
        rest = (rest >> 1) ^ if rest & 1 == 1 { POLYNOMIAL } else { 0 };
        bit += 1;
    }
    rest
}

/// Start 0, no inversion at either end.
pub fn checksum(bytes: &[u8]) -> u32 {
    extend(0, bytes)
}

/// The checksum of some bytes and those that follow them, from the checksum of the former.
///
/// Eight bytes have to wait for the sum of those before them. To keep the wait short, what does not
/// depend on it is looked up first, and the sum comes in two parts, with the next four bytes in one.
pub fn extend(sum: u32, bytes: &[u8]) -> u32 {
    let mut eights = bytes.chunks_exact(8);
    let rest = eights.remainder();
    let Some(eight) = eights.next() else {
        return byte_by_byte(sum, rest);
    };
    let (first, mut last) = halves(eight);
    let mut parts = [sum, first];
    for eight in eights {
        let (first, next) = halves(eight);
        parts = over_eight(parts, last, first);
        last = next;
    }
    let [left, right] = over_eight(parts, last, 0);
    byte_by_byte(left ^ right, rest)
}

fn halves(eight: &[u8]) -> (u32, u32) {
    (u32_at(eight, 0), u32_at(eight, 4))
}

/// Two parts whose exclusive or is the sum over eight bytes, mixed with the four that come next. Such
/// parts are given too: of the sum before the eight bytes, mixed with their first half.
fn over_eight(parts: [u32; 2], last: u32, next: u32) -> [u32; 2] {
    let [a, b, c, d] = last.to_le_bytes().map(usize::from);
    let ahead = TABLES[3][a] ^ TABLES[2][b] ^ TABLES[1][c] ^ TABLES[0][d] ^ next;
    let [a, b, c, d] = (parts[0] ^ parts[1]).to_le_bytes().map(usize::from);
    let left = ahead ^ TABLES[7][a] ^ TABLES[6][b];
    [left, TABLES[5][c] ^ TABLES[4][d]]
}

fn byte_by_byte(sum: u32, bytes: &[u8]) -> u32 {
    bytes.iter().fold(sum, |sum, &byte| {
        (sum >> 8) ^ TABLES[0][usize::from(sum as u8 ^ byte)]
    })
}

/// Only the low 32 bits of offset and number play a part.
pub fn signature(offset: u64, number: u64) -> u16 {
    let mixed = offset ^ number;
    (mixed ^ (mixed >> 16)) as u16
}
