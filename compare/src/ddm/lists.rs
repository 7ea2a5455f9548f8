//! Lists of objects and parameters: good ones, unfit ones, cut, damaged.
use super::case::Held;
use super::lengths::{all, headed};
use crate::answers::ANSWER_WORDS;
use crate::{Chance, Tally};

/// Extended: so many length bytes, a number, and so many bytes of data behind them.
fn extended(width: usize, number: u64, code_point: u16, data: usize) -> Vec<u8> {
    let mut behind = vec![0; width.saturating_sub(8)];
    behind.extend(&number.to_be_bytes()[8 - width.min(8)..]);
    behind.extend((0..data).map(|i| 0xE1 + i as u8));
    headed(0x8004 + width, code_point, &behind)
}

/// What lists are put together from. Good ones: inline ones, of which two have the same code point and one is empty; extended
/// ones, with the number that fits; one of raw length 0x8004, which takes all that follows.
pub fn good() -> Vec<Vec<u8>> {
    vec![
        headed(6, 0x2401, &[0xC1, 0xC2]),
        headed(5, 0x2402, &[0xC3]),
        headed(7, 0x2401, &[0xC4, 0xC5, 0xC6]),
        headed(4, 0x2403, &[]),
        extended(1, 2, 0x2402, 2),
        extended(4, 0, 0x2404, 0),
        extended(9, 1, 0x2401, 1),
        headed(0x8004, 0x2405, &[0xC7]),
    ]
}

/// And unfit ones: inline below 4; a header below 4; a header, a length and a number beyond the data; numbers that lose bits, of
/// which the Rust takes the rest, and that wrap; one whose end wraps behind any four bytes.
pub fn unfit() -> Vec<Vec<u8>> {
    vec![
        headed(3, 0x2401, &[0xC1]),
        headed(0x8003, 0x2402, &[]),
        headed(0x80FF, 0x2402, &[0, 0]),
        headed(0x0101, 0x2401, &[0xC1]),
        extended(2, 0x0100, 0x2403, 1),
        [&[0x80, 0x0D, 0x24, 0x02, 1], &[0; 8][..]].concat(),
        [&[0x80, 0x0E, 0x24, 0x01, 1, 0], &[0; 7][..], &[1, 0xC9]].concat(),
        extended(8, u64::MAX - 11, 0x2402, 0),
        extended(8, u64::MAX - 12, 0x2401, 0),
        extended(8, u64::MAX - 15, 0x2402, 1),
    ]
}

/// Every list of up to three of them, of which two are cut at every byte, from every position, and with a byte changed.
pub fn short(tally: &mut Tally, held: &mut Held) {
    let pieces = [good(), unfit()].concat();
    all(tally, held, &[]);
    for first in &pieces {
        for second in &pieces {
            let run = [&first[..], second].concat();
            for cut in 0..=run.len() {
                all(tally, held, &run[..cut]);
            }
            for at in (0..run.len() + 3).chain(FAR) {
                held.hold_object(tally, &run, at);
                held.hold_step_at(tally, &run, at);
            }
            for place in 0..run.len().min(first.len() + 6) {
                for byte in [0, 3, 4, 5, 0x7F, 0x80, 0xFF] {
                    let mut run = run.clone();
                    run[place] = byte;
                    all(tally, held, &run);
                }
            }
            for third in &pieces {
                all(tally, held, &[&run[..], third].concat());
            }
        }
    }
}

/// Positions as far beyond a run as numbers go.
const FAR: [usize; 5] = [1 << 32, 1 << 63, usize::MAX - 4, usize::MAX - 1, usize::MAX];

/// Fewer words than an answer has stay as they are, and of more only so many are laid down: done, and each refusal.
pub fn few_words(tally: &mut Tally, held: &mut Held) {
    for words in 0..=12 {
        held.lent_words = words;
        for piece in [good(), unfit()].concat() {
            for _ in 0..5 {
                all(tally, held, &piece);
                held.hold_strip(tally, &piece);
                held.hold_object(tally, &piece, piece.len() + 1);
                held.hold_step_at(tally, &piece, piece.len() + 1);
            }
        }
    }
    held.lent_words = ANSWER_WORDS;
}

/// Many of them: each of four or five bytes, the last one cut, or of raw length 0x8004.
pub fn many(tally: &mut Tally, held: &mut Held) {
    for count in [255, 256, 1000] {
        let piece = |i: usize| headed(4 + i % 2, i as u16, &[0xC1][..i % 2]);
        let mut run: Vec<u8> = (0..count).flat_map(piece).collect();
        all(tally, held, &run);
        all(tally, held, &run[..run.len() - 1]);
        run.extend(headed(0x8004, 7, &[0xC1; 9]));
        all(tally, held, &run);
    }
}

/// A random list of up to six, mostly good, at times damaged and at times cut; and where they start.
pub fn random_list(chance: &mut Chance) -> (Vec<u8>, Vec<usize>) {
    let mut run = Vec::new();
    let mut starts = vec![0];
    for _ in 0..chance.below(7) {
        run.extend(piece(chance));
        starts.push(run.len());
    }
    if chance.below(3) == 0 && !run.is_empty() {
        let place = starts[chance.below(starts.len())] + chance.below(14);
        let place = place.min(run.len() - 1);
        run[place] = [0, 1, 4, 0x7F, 0x80, 0xFF, chance.byte()][chance.below(7)];
    }
    if chance.below(3) == 0 {
        run.truncate(chance.below(run.len() + 1));
    }
    (run, starts)
}

/// Such a list, and the object and the parameter at a place of it.
pub fn random(tally: &mut Tally, held: &mut Held, chance: &mut Chance) {
    let (run, starts) = random_list(chance);
    held.lent_words = 6 + chance.below(5);
    all(tally, held, &run);
    let at = starts[chance.below(starts.len())] + chance.below(6);
    held.hold_object(tally, &run, at);
    held.hold_step_at(tally, &run, at);
    held.lent_words = ANSWER_WORDS;
}

/// One of them: inline, extended with up to twelve length bytes, or unfit.
fn piece(chance: &mut Chance) -> Vec<u8> {
    let code_point = 0x2401 + chance.below(4) as u16;
    let len = chance.below(12);
    match chance.below(16) {
        0 => {
            let unfit = unfit();
            unfit[chance.below(unfit.len())].clone()
        }
        1 => headed(0x8004, code_point, &chance.bytes(len)),
        2..=6 => extended(1 + chance.below(12), len as u64, code_point, len),
        7 => extended(
            ANSWER_WORDS + chance.below(3),
            (chance.below(24) as u64).wrapping_neg(),
            code_point,
            len,
        ),
        _ => headed(4 + len, code_point, &chance.bytes(len)),
    }
}
