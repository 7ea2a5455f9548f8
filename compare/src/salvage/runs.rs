//! Runs to salvage: short ones one and all, long ones around each edge, and random ones, each damaged and cut.
use super::{Held, MOST};
use crate::reader::long::{each_continued, each_dead, written};
use crate::reader::short::{every_frame, frame, framed};
use crate::reader::{runs, PAPER};
use crate::{Chance, Tally};

/// Once in so many random runs there are long frames.
const LONG: usize = 200;

/// A frame that is good, behind a damaged one.
pub const GOOD: &[u8] = b"\x00\x06\xD0\x02\x00\x07";

/// A frame, an object behind it that it absorbs.
const TWO: &[u8] = b"\x00\x0A\xD0\x02\x00\x01\x80\x04\x24\x1B\x00\x09\xD0\x53\x00\x01\x7F\xFE\xC1";

/// A run cut at every byte, and with each of a few bytes in the place of every byte.
fn spoilt(tally: &mut Tally, held: &mut Held, run: &[u8]) {
    for place in 0..run.len() {
        held.hold(tally, &run[..place]);
        for byte in [0, 1, 5, 6, 7, 0x02, 0x13, 0x15, 0x53, 0x7F, 0xD0, 0xFF] {
            let mut spoilt = run.to_vec();
            spoilt[place] = byte;
            held.hold(tally, &spoilt);
        }
    }
}

/// Document 01's cases of frames, each behind each other and alone, with a good frame behind them: whole and spoilt.
pub fn paper(tally: &mut Tally, held: &mut Held) {
    for first in PAPER {
        for second in PAPER {
            let run = [first, second, GOOD].concat();
            held.hold(tally, &run);
            spoilt(tally, held, &run);
        }
    }
}

/// Fewer words than an answer has stay as they are, and of more only so many are laid down.
pub fn few_words(tally: &mut Tally, held: &mut Held) {
    for words in 0..=12 {
        for first in PAPER {
            for second in PAPER {
                held.hold_in(tally, &[first, second].concat(), words);
            }
        }
    }
}

/// Every run of up to six bytes of a larger alphabet and of up to seven of a smaller one: alone, and behind a frame that could
/// absorb it.
pub fn tails(tally: &mut Tally, held: &mut Held) {
    let larger = [0x00, 0x06, 0x07, 0x13, 0x02, 0xD0, 0xFF];
    let smaller = [0x00, 0x06, 0x07, 0x13, 0xD0];
    for (letters, most) in [(&larger[..], 6), (&smaller[..], 7)] {
        let many = letters.len();
        for len in 0..=most {
            for n in 0..many.pow(len) {
                let letter = |i: u32| letters[n / many.pow(i) % many];
                let tail: Vec<u8> = (0..len).map(letter).collect();
                held.hold(tally, &tail);
                held.hold(tally, &[&TWO[..10], &tail].concat());
            }
        }
    }
}

/// Each first frame of a few, every second one, spoilt in turn, with frames behind it: a length of up to 12 in a first head and
/// in one that is looked at, every type and set of flags, payloads that the rules look at.
pub fn three(tally: &mut Tally, held: &mut Held) {
    let mut turn = 0;
    for kind in 1..=5 {
        for payload in [&[][..], &[0xAA], &[0x80, 0x04, 0x24], &TWO[6..10]] {
            let first = framed(kind, 1, payload);
            for mut second in every_frame(1) {
                turn += 1;
                if turn % 5 == 0 {
                    second[2] = [0x00, 0xD1, 0x2D][turn % 3];
                }
                // As many bytes as its length says, where it has them, so that what follows is a head.
                let says = second[1] as usize;
                if turn % 2 == 0 && says >= 6 {
                    second.truncate(says);
                }
                let third = [GOOD, TWO, &TWO[10..]][turn % 3];
                let run = [&first[..], &second, third].concat();
                held.hold(tally, &run);
                if turn % 7 == 0 {
                    held.hold(
                        tally,
                        &run[..first.len() + turn % (run.len() - first.len())],
                    );
                    held.hold(tally, &run[first.len()..]);
                }
            }
        }
    }
}

/// Frames around each edge as the Rust writes them, between short ones: good, and with a spoilt magic or type, and cut around
/// each segment's start and end. A last segment that is full, of 65,526 and of 98,291 bytes, is the last here.
pub fn edges(tally: &mut Tally, held: &mut Held, chance: &mut Chance) {
    for len in [
        32_760, 32_761, 32_762, 65_525, 65_526, 65_527, 98_291, 98_292,
    ] {
        let payload = chance.bytes(len);
        for (kind, same) in (1..).zip([true, false, true, false, true]) {
            let long = written(kind, same, &payload);
            for (place, byte) in [(2, 0xD0), (2, 0xD1), (3, 0x56), (3, 0x10)] {
                let mut run = [TWO, &long, GOOD, TWO].concat();
                if (place, byte) != (2, 0xD0) {
                    run[TWO.len() + place] = byte;
                }
                held.hold(tally, &run);
                for segment in 0..=len / 32_767 + 1 {
                    let start = TWO.len() + segment * 32_767;
                    for cut in [start - 1, start, start + 1, start + 2, start + 6] {
                        held.hold(tally, &run[..cut.min(run.len())]);
                    }
                }
            }
        }
    }
}

/// Continuations with frames behind them, of which the first could be absorbed. At one of length 0 or 1 the walk ends.
pub fn continuations(tally: &mut Tally, held: &mut Held, chance: &mut Chance) {
    each_continued(chance, &[TWO, GOOD].concat(), |run| held.hold(tally, run));
    each_dead(chance, |run, _| held.hold(tally, run));
    // The same lengths as a frame's own, with so many bytes.
    for length in [0x7FFE, 0x7FFF, 0x8000, 0x8004, 0xFFFE] {
        for format in [0x03, 0x13, 0x05, 0x06] {
            let long = frame(length, format, 1, &chance.bytes(length as usize - 6));
            let run = [TWO, &long, &TWO[10..], GOOD].concat();
            held.hold(tally, &run);
            held.hold(tally, &run[..TWO.len() + long.len() - 1]);
            held.hold(tally, &run[10..]);
        }
    }
}

/// Many frames, good and refused in turn, in one run.
pub fn many(tally: &mut Tally, held: &mut Held) {
    for count in [100, 255, 256, 257, 500] {
        let mut run = Vec::new();
        for i in 0..count {
            let mut bytes = framed([2, 3, 5][i % 3], i as u16, &TWO[..i % 12]);
            bytes[2] ^= (i % 3 / 2) as u8;
            run.extend(bytes);
        }
        held.hold(tally, &run);
        held.hold(tally, &run[..run.len() - 1]);
    }
}

/// A random run, damaged up to four times and cut once of three; one of eight is of random bytes of which some make heads.
pub fn random(tally: &mut Tally, held: &mut Held, chance: &mut Chance) {
    if chance.below(8) == 0 {
        let letters = [
            0, 0, 5, 6, 7, 8, 11, 0xD0, 0xD0, 0x13, 0x53, 0x02, 0x80, 0x04, 0x7F, 0xFE, 0xFF,
        ];
        let bytes = (0..chance.below(64)).map(|_| match chance.below(4) {
            0 => chance.byte(),
            _ => letters[chance.below(letters.len())],
        });
        let bytes: Vec<u8> = bytes.collect();
        return held.hold(tally, &bytes);
    }
    let mut run = runs::random(chance, LONG);
    run.bytes.truncate(MOST - 64);
    for _ in 0..chance.below(5) {
        run.damage(chance);
    }
    if chance.below(3) == 0 {
        let end = run.place(chance, 24).min(run.bytes.len());
        run.bytes.truncate(end);
    }
    held.hold(tally, &run.bytes);
}
