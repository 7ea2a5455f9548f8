//! Inputs in pieces. A piece starts with a number, four times its length and its kind: 0, the bytes follow; 1, its one byte
//! follows as a number; 2, the start follows from which its bytes are counted out.
use super::put;

/// Shorter rows of one byte, or of counted bytes, stand as they are.
const SHORTEST: usize = 8;

/// The row of bytes from a start on: the high bytes of a row of 16-bit numbers that comes back to its start after 65,536.
pub fn counted(len: usize, start: u16) -> Vec<u8> {
    let mut x = start;
    let mut bytes = Vec::with_capacity(len);
    for _ in 0..len {
        bytes.push((x >> 8) as u8);
        x = next(x);
    }
    bytes
}

fn next(x: u16) -> u16 {
    x.wrapping_mul(25173).wrapping_add(13849)
}

/// An input: how many pieces, then the pieces.
pub fn put_input(out: &mut Vec<u8>, bytes: &[u8]) {
    let mut pieces = Vec::new();
    let (mut count, mut literal, mut at) = (0, 0, 0);
    while at < bytes.len() {
        let (kind, value, len) = longest(&bytes[at..]);
        if len < SHORTEST {
            at += 1;
            continue;
        }
        count += put_literal(&mut pieces, &bytes[literal..at]);
        put(&mut pieces, 4 * len as u64 + kind);
        put(&mut pieces, value);
        count += 1;
        at += len;
        literal = at;
    }
    count += put_literal(&mut pieces, &bytes[literal..]);
    put(out, count);
    out.extend(pieces);
}

fn put_literal(pieces: &mut Vec<u8>, bytes: &[u8]) -> u64 {
    if bytes.is_empty() {
        return 0;
    }
    put(pieces, 4 * bytes.len() as u64);
    pieces.extend(bytes);
    1
}

/// The kind, the number and the length of the longest row at the start of some bytes.
fn longest(bytes: &[u8]) -> (u64, u64, usize) {
    let first = bytes[0];
    let same = bytes.iter().take_while(|b| **b == first).count();
    let mut best = (1, first as u64, same);
    for low in 0..=255 {
        let start = first as u16 * 256 + low;
        let len = length_counted(bytes, start);
        if len > best.2 {
            best = (2, start as u64, len);
        }
    }
    best
}

fn length_counted(bytes: &[u8], start: u16) -> usize {
    let mut x = start;
    let fits = |b: &&u8| {
        let fits = **b == (x >> 8) as u8;
        x = next(x);
        fits
    };
    bytes.iter().take_while(fits).count()
}
