//! Length fields: every raw length, and extended headers with chosen length bytes.
use super::case::Held;
use crate::{Chance, Tally};

/// A run through every call that reads a length.
pub fn all(tally: &mut Tally, held: &mut Held, run: &[u8]) {
    held.hold_length(tally, run);
    held.hold_object(tally, run, 0);
    held.hold_objects(tally, run);
    held.hold_parameters(tally, run);
}

/// A raw length, a code point, and what stands behind them.
pub fn headed(raw: usize, code_point: u16, behind: &[u8]) -> Vec<u8> {
    let ([a, b], [c, d]) = ((raw as u16).to_be_bytes(), code_point.to_be_bytes());
    [&[a, b, c, d], behind].concat()
}

/// Every raw length before 0, 1, 8 and 20 bytes of any kind, and cut by each of the four bytes.
pub fn raws(tally: &mut Tally, held: &mut Held, chance: &mut Chance) {
    for raw in 0..=0xFFFF {
        let run = headed(raw, raw as u16 ^ 0x2412, &chance.bytes(20));
        for len in [4, 5, 12, 24] {
            held.hold_length(tally, &run[..len]);
            held.hold_object(tally, &run[..len], 0);
        }
        held.hold_length(tally, &run[..raw % 4]);
        held.hold_objects(tally, &run);
        held.hold_parameters(tally, &run);
    }
}

/// Lengths that are just there, and one more and one less: every inline one up to 600, and those around its largest.
pub fn fitting(tally: &mut Tally, held: &mut Held, chance: &mut Chance) {
    for raw in (0..=600).chain(0x7FF8..=0x7FFF) {
        let run = headed(raw, 0x2412, &chance.bytes(raw));
        for len in raw.saturating_sub(1)..=raw + 1 {
            all(tally, held, &run[..len]);
        }
    }
}

/// Data behind each extended header.
const DATA: [u8; 5] = [0xC1, 0xC2, 0x00, 0x04, 0xC5];

/// The last bytes of a number, and zeros before them.
fn spelled(width: usize, number: u64) -> Vec<u8> {
    let eight = number.to_be_bytes();
    let mut bytes = vec![0; width.saturating_sub(8)];
    bytes.extend(&eight[8 - width.min(8)..]);
    bytes
}

/// The length bytes that are tried in a header of so many bytes: none, FF, numbers around what stands there and around the
/// largest whose sum with the header has 64 bits; each of these small and large ones also with a bit in each higher byte.
fn length_bytes(chance: &mut Chance, header: usize) -> Vec<Vec<u8>> {
    let width = header.saturating_sub(4);
    let most = u64::MAX - header as u64;
    let near = DATA.len() as u64;
    let mut all = vec![vec![0xFF; width], chance.bytes(width)];
    for number in [0, 1, near - 1, near, near + 1, 1 << 32, 1 << 63]
        .into_iter()
        .chain(most - 6..=most + 4)
        .chain([u64::MAX - 1, u64::MAX])
    {
        let bytes = spelled(width, number);
        for place in 0..width.saturating_sub(8) {
            let mut lost = bytes.clone();
            lost[place] = 1 << (place % 8);
            all.push(lost);
        }
        all.push(bytes);
    }
    all
}

/// Every extended header of 0 to 40 bytes with those length bytes, cut at every byte; behind another parameter, before one.
pub fn extended(tally: &mut Tally, held: &mut Held, chance: &mut Chance) {
    for header in 0..=40 {
        for bytes in length_bytes(chance, header) {
            let run = headed(0x8000 + header, 0x2412, &[&bytes[..], &DATA].concat());
            for cut in 0..=run.len() {
                held.hold_length(tally, &run[..cut]);
                held.hold_object(tally, &run[..cut], 0);
            }
            held.hold_objects(tally, &run);
            held.hold_parameters(tally, &run);
            let before = headed(4 + header % 3, 0x2413, &[0xEE, 0xEF][..header % 3]);
            let behind = headed(5, 0x2413, &[0xDD]);
            all(tally, held, &[&before[..], &run, &behind].concat());
            held.hold_object(tally, &[&before[..], &run].concat(), before.len());
        }
    }
}

/// Long extended headers, up to the longest: with what stands there and one more, and with a bit in some higher byte.
pub fn long_headers(tally: &mut Tally, held: &mut Held, chance: &mut Chance) {
    for header in [41, 255, 256, 300, 1000, 0x7FFE, 0x7FFF] {
        for number in [
            0,
            5,
            6,
            u64::MAX - header as u64,
            u64::MAX - header as u64 + 1,
        ] {
            let mut bytes = spelled(header - 4, number);
            bytes.extend(DATA);
            for lost in [
                None,
                Some(0),
                Some(header - 13),
                Some(chance.below(header - 12)),
            ] {
                let mut bytes = bytes.clone();
                if let Some(place) = lost {
                    bytes[place] = 1;
                }
                let run = headed(0x8000 + header, 0x2412, &bytes);
                all(tally, held, &run);
                all(tally, held, &run[..header - 1]);
            }
        }
    }
}
