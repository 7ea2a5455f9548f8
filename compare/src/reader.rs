//! Module 3 of document 01: the reader. The port's functions against the Rust's DssReader: head, payload, position, refusals, and
//! the row of records.
//! Where the Rust stops, for the count of segments, which it doesn't have, and for which frames that aren't whole never will be,
//! against a walk by the documents.
mod all;
mod case;
pub mod long;
pub mod record;
pub mod runs;
pub mod rust;
pub mod short;
pub mod walk;

use crate::answers::ANSWER_WORDS;
use crate::{Chance, Tally};
use case::{Held, MOST};

/// Once in so many random runs there are long frames.
const LONG: usize = 200;

/// A run up to this length is now and then cut at every byte.
const SHORT: usize = 64;

pub fn compare(tally: &mut Tally, chance: &mut Chance, cases: u64) {
    let mut held = Held::new();
    paper(tally, &mut held);
    short::one(tally, &mut held);
    short::two(tally, &mut held);
    short::three(tally, &mut held);
    long::edges(tally, &mut held, chance);
    long::continuations(tally, &mut held, chance);
    long::dead(tally, &mut held, chance);
    long::absorbed(tally, &mut held, chance);
    positions(tally, &mut held);
    few_words(tally, &mut held);
    for _ in 0..cases {
        random(tally, &mut held, chance);
    }
}

/// Document 01's cases of frames, P1 to P12, of which document 02, W-210, changes P4 and P7; and W-210's own: a request that wants
/// no reply, an object behind it, another one behind it.
pub const PAPER: [&[u8]; 15] = [
    b"",
    b"\x00\x06\xD0\x02\x00\x07",
    b"\x00\x06\xD1\x02\x00\x07",
    b"\x00\x06\xD0\x06\x00\x07",
    b"\x00\x05\xD0\x02\x00\x07",
    b"\x00\x05\xD1\x02\x00\x07",
    b"\x00\x07\xD0\x06\x00\x07",
    b"\x00\x06\xD0\x02\x00\x07\0\0\0\0\0\0",
    b"\x00\x07\xD0\x03\x00\x01\xAA\x00\x07\xD0\x53\x00\x01\xBB",
    b"\x00\x06\xD0\x02\x00\x01\x00\x0A\xD0\x13\x00\x01\x00\x04\x24\x14",
    b"\x00\x06\xD0\x02\x00\x01\x00\x0B\xD0\x13\x00\x01\x00\x05\x24\x14\xC1",
    b"\x00\x0A\xD0\x03\x00\x01\x80\x04\x24\x1B\x00\x09\xD0\x13\x00\x01\x7F\xFE\xC1",
    b"\x00\x06\xD0\x05\x00\x07",
    b"\x00\x06\xD0\x05\x00\x01\x00\x0A\xD0\x13\x00\x01\x00\x04\x24\x14",
    b"\x00\x07\xD0\x05\x00\x01\xAA\x00\x07\xD0\x55\x00\x01\xBB",
];

/// Those, each also with another behind it; cut at every byte, and at every byte with another one in its place.
fn paper(tally: &mut Tally, held: &mut Held) {
    for first in PAPER {
        for second in PAPER {
            let run = [first, second].concat();
            held.hold(tally, &run);
            short::spoilt(tally, held, &run);
        }
    }
}

/// Every position of those runs, at their end, beyond it, and as far beyond it as numbers go.
fn positions(tally: &mut Tally, held: &mut Held) {
    for run in PAPER {
        let far = [1 << 32, 1 << 63, usize::MAX - 6, usize::MAX - 1, usize::MAX];
        for at in (0..run.len() + 8).chain(far) {
            held.hold_at(tally, run, at, ANSWER_WORDS);
        }
    }
}

/// Fewer words than an answer has stay as they are, and of more only so many are laid down: done, and each refusal.
fn few_words(tally: &mut Tally, held: &mut Held) {
    for words in 0..=12 {
        for run in PAPER {
            for _ in 0..4 {
                held.hold_in(tally, run, words);
                held.hold_at(tally, run, run.len() + 1, words);
            }
        }
    }
}

/// A random run, damaged once of three times and cut once of three; at times at every byte, in two parts, or from any place on.
fn random(tally: &mut Tally, held: &mut Held, chance: &mut Chance) {
    let mut run = runs::random(chance, LONG);
    run.bytes.truncate(MOST - 64);
    if chance.below(3) == 0 {
        run.damage(chance);
    }
    if chance.below(3) == 0 {
        let end = run.place(chance, 24).min(run.bytes.len());
        run.bytes.truncate(end);
    }
    let bytes = &run.bytes;
    held.hold(tally, bytes);
    match chance.below(32) {
        0 if bytes.len() <= SHORT => {
            for cut in 0..bytes.len() {
                held.hold(tally, &bytes[..cut]);
            }
        }
        1..=4 => held.hold_at(tally, bytes, run.place(chance, 9), 6 + chance.below(5)),
        5..=8 => held.hold_arriving(tally, bytes, chance.below(bytes.len() + 1)),
        9 => held.hold_at(
            tally,
            bytes,
            bytes.len() + 1 + chance.below(9),
            ANSWER_WORDS,
        ),
        _ => (),
    }
}
