//! Continuation markers: data around each edge, with markers and without, by themselves, as an object and as a parameter.
use super::case::{Held, MOST};
use super::lengths::headed;
use crate::{Chance, Tally};

/// Document 01's chunks: the first, and each after it.
const FIRST: usize = 32_757;
const NEXT: usize = 32_764;

/// Once in so many random cases data are long.
const LONG: usize = 400;

/// Two bytes where a marker can stand: the two that are one, and those next to them.
pub const KINDS: [[u8; 2]; 4] = [[0x7F, 0xFE], [0x7F, 0xFF], [0x7F, 0xFD], [0x80, 0x00]];

/// Where the first marker can stand, and the second behind one and behind none.
pub const PLACES: [usize; 3] = [FIRST, FIRST + NEXT, FIRST + NEXT + 2];

/// The places where the Rust looks for up to four markers, of which those in the mask are there.
fn places(mask: usize) -> Vec<usize> {
    let mut places = vec![FIRST];
    for bit in 0..3 {
        let at = places[bit];
        places.push(at + NEXT + if mask >> bit & 1 == 1 { 2 } else { 0 });
    }
    places
}

/// Data of so many bytes with these two bytes at those places of the mask, so far as they are there.
pub fn marked(bytes: &[u8], len: usize, mask: usize, kind: [u8; 2]) -> Vec<u8> {
    let mut data = bytes[..len].to_vec();
    for (bit, place) in places(mask).into_iter().enumerate() {
        for (i, b) in kind.into_iter().enumerate() {
            if mask >> bit & 1 == 1 && place + i < len {
                data[place + i] = b;
            }
        }
    }
    data
}

/// Data by themselves; as the object of raw length 0x8004 that takes all, and as one behind another; as parameters of the same.
fn hold(tally: &mut Tally, held: &mut Held, data: &[u8], whole: bool) {
    held.hold_strip(tally, data);
    let run = headed(0x8004, 0x241B, data);
    held.hold_object(tally, &run, 0);
    if whole {
        let run = [&[0, 6, 0x24, 0x12, 0xC1, 0xC2], &run[..]].concat();
        held.hold_object(tally, &run, 6);
        held.hold_objects(tally, &run);
        held.hold_parameters(tally, &run);
        held.hold_step_at(tally, &run, 6);
    }
}

/// Lengths around each place where data change: at the place of each marker, behind it, and at the end of a chunk.
pub fn edges(tally: &mut Tally, held: &mut Held, chance: &mut Chance) {
    let bytes = chance.bytes(MOST);
    for mask in 0..16 {
        for (bit, place) in places(mask).into_iter().enumerate() {
            // The places up to it are those of the mask's lower bits alone: the higher ones are tried at its own place.
            if mask >> bit > 1 {
                continue;
            }
            for len in place - 2..=place + 7 {
                let kind = KINDS[len % 2];
                let data = marked(&bytes, len, mask, kind);
                hold(tally, held, &data, len == place + 3);
            }
        }
    }
    for len in [0, 1, 2, 3, FIRST - 1, FIRST + NEXT - 1, 2 * NEXT, 4 * NEXT] {
        for kind in KINDS {
            hold(tally, held, &marked(&bytes, len, 15, kind), true);
        }
    }
}

/// One marker at each place around the one that matters: it alone has an effect. And markers all over the data.
pub fn beside(tally: &mut Tally, held: &mut Held, chance: &mut Chance) {
    let bytes = chance.bytes(MOST);
    for len in [FIRST + 2, FIRST + 3, FIRST + 10, FIRST + NEXT + 12] {
        for place in places(1)[..2].iter().flat_map(|at| at - 4..=at + 4) {
            for kind in KINDS {
                let mut data = marked(&bytes, len, if place < FIRST + 9 { 0 } else { 1 }, KINDS[0]);
                if place + 2 <= len {
                    data[place..place + 2].copy_from_slice(&kind);
                    hold(tally, held, &data, false);
                }
            }
        }
        for shift in 0..2 {
            let alternating = |at: usize| [0x7F, 0xFE][(at + shift) % 2];
            let data: Vec<u8> = (0..len).map(alternating).collect();
            hold(tally, held, &data, true);
        }
    }
}

/// Data of the same raw length that are no object of it: an inline one, and an extended one. Nothing is removed from them.
pub fn others(tally: &mut Tally, held: &mut Held, chance: &mut Chance) {
    for len in [32_762, 32_763, 32_764, 40_000] {
        let bytes = chance.bytes(len);
        let data = marked(&bytes, len, 15, KINDS[0]);
        let inline = headed(len + 4, 0x241B, &data);
        let number = (len as u32).to_be_bytes();
        let extended = headed(0x8008, 0x241B, &[&number[..], &data].concat());
        for run in [inline, extended] {
            held.hold_length(tally, &run);
            held.hold_object(tally, &run, 0);
            held.hold_objects(tally, &run);
            held.hold_parameters(tally, &run);
        }
    }
}

/// Random data, short or of up to four chunks, with any of the four markers.
pub fn random(tally: &mut Tally, held: &mut Held, chance: &mut Chance) {
    let len = match chance.below(LONG) {
        0 => FIRST + chance.below(3 * NEXT + 40),
        _ => chance.below(40),
    };
    let bytes = chance.bytes(len);
    let kind = KINDS[chance.below(4)];
    let data = marked(&bytes, len, chance.below(16), kind);
    hold(tally, held, &data, chance.below(4) == 0);
}
