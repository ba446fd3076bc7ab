//! Encoding of block bytes in place (01, Blocks and their encoding; 003, 5.1 and 5.2).

use crate::refusal::{demand, Answer};
use crate::tables::{I, R, S};

pub const NONE: u8 = 0;
pub const PERMUTE: u8 = 1;
pub const CYCLIC: u8 = 2;

pub fn encode(method: u8, block: u64, bytes: &mut [u8]) -> Answer<()> {
    demand(method <= CYCLIC, 5, 0)?;
    match method {
        PERMUTE => permute(&R, bytes),
        CYCLIC => cyclic(block, bytes),
        _ => {}
    }
    Ok(())
}

pub fn decode(method: u8, block: u64, bytes: &mut [u8]) -> Answer<()> {
    demand(method <= CYCLIC, 5, 0)?;
    match method {
        PERMUTE => permute(&I, bytes),
        CYCLIC => cyclic(block, bytes),
        _ => {}
    }
    Ok(())
}

fn permute(table: &[u8; 256], bytes: &mut [u8]) {
    for byte in bytes {
        *byte = table[usize::from(*byte)];
    }
}

/// The same steps both ways.
fn cyclic(block: u64, bytes: &mut [u8]) {
    let mut w = (block ^ (block >> 16)) as u16;
    for byte in bytes {
        let [low, high] = w.to_le_bytes();
        let r = R[usize::from(byte.wrapping_add(low))];
        let s = S[usize::from(r.wrapping_add(high))];
        *byte = I[usize::from(s.wrapping_sub(high))].wrapping_sub(low);
        w = w.wrapping_add(1);
    }
}
