//! Short runs, one and all: of one, two and three frames.
use super::case::Held;
use crate::Tally;

/// Payloads that the rules look at, each as its first bytes: nothing of the kind; an extended object; the two markers, and what
/// is none; object heads that are as long as they say, longer, and around "at most length - 2" for lengths 11 and 12; and code
/// points around 0x0100.
const PAYLOADS: [[u8; 6]; 12] = [
    [0xAA, 0xBB, 0xCC, 0xDD, 0xEE, 0xFF],
    [0x80, 0x04, 0x24, 0x1B, 0xC1, 0xC2],
    [0x7F, 0xFE, 0xC1, 0xC2, 0xC3, 0xC4],
    [0x7F, 0xFF, 0x01, 0x00, 0xC3, 0xC4],
    [0x7F, 0xFD, 0x00, 0xFF, 0xC3, 0xC4],
    [0x00, 0x05, 0x24, 0x14, 0xC1, 0xC2],
    [0x00, 0x04, 0x24, 0x14, 0xC1, 0xC2],
    [0x00, 0x0A, 0x01, 0x00, 0xC1, 0xC2],
    [0x00, 0x09, 0x01, 0x01, 0xC1, 0xC2],
    [0x00, 0x0A, 0x01, 0x01, 0xC1, 0xC2],
    [0x00, 0x0B, 0x01, 0x01, 0xC1, 0xC2],
    [0x04, 0x24, 0x1B, 0x7F, 0xFE, 0xC1],
];

/// All eight sets of flags, and 0x80 with none and with all.
const FLAGS: [u8; 10] = [0, 0x10, 0x20, 0x30, 0x40, 0x50, 0x60, 0x70, 0x80, 0xF0];

/// The longest length that short frames say, and as many bytes stand there.
const LONGEST: usize = 12;

/// A head and what stands behind it, whatever length it says.
pub fn frame(length: u16, format: u8, correlation: u16, behind: &[u8]) -> Vec<u8> {
    let ([a, b], [c, d]) = (length.to_be_bytes(), correlation.to_be_bytes());
    [&[a, b, 0xD0, format, c, d], behind].concat()
}

/// A frame of a payload.
pub fn framed(format: u8, correlation: u16, payload: &[u8]) -> Vec<u8> {
    frame(payload.len() as u16 + 6, format, correlation, payload)
}

/// Every length from 0 to 12, type from 1 to 5 and in turn 0 or 6, set of flags and payload, in twelve bytes.
pub fn every_frame(correlation: u16) -> impl Iterator<Item = Vec<u8>> {
    (0..=LONGEST as u16).flat_map(move |length| {
        let none = [0, 6][length as usize % 2];
        [none, 1, 2, 3, 4, 5].into_iter().flat_map(move |kind| {
            FLAGS.into_iter().flat_map(move |flags| {
                PAYLOADS.map(|payload| frame(length, flags + kind, correlation, &payload))
            })
        })
    })
}

/// One frame, at every magic byte of a few, cut at every byte.
pub fn one(tally: &mut Tally, held: &mut Held) {
    for mut bytes in every_frame(0x1234) {
        for cut in 0..=bytes.len() {
            held.hold(tally, &bytes[..cut]);
        }
        for magic in [0, 0xCF, 0xD1] {
            bytes[2] = magic;
            held.hold(tally, &bytes);
        }
    }
}

/// Each first frame of a few with every second one: where that one can be absorbed, cut at each of its bytes, else in turn at
/// one.
pub fn two(tally: &mut Tally, held: &mut Held) {
    let mut turn = 0;
    for kind in 1..=5 {
        for payload in [&[][..], &[0xAA], &PAYLOADS[1][..3], &PAYLOADS[1][..4]] {
            let first = framed(kind + FLAGS[turn % FLAGS.len()], 1, payload);
            for second in every_frame(1 + turn as u16 % 2) {
                turn += 1;
                let run = [&first[..], &second].concat();
                held.hold(tally, &run);
                let follows = second[3] & 0x10 != 0 && [kind, 3].contains(&(second[3] & 15));
                let cuts = if follows {
                    0..second.len()
                } else {
                    turn % LONGEST..turn % LONGEST + 1
                };
                for cut in cuts {
                    held.hold(tally, &run[..first.len() + cut]);
                }
            }
        }
    }
}

/// The starts that make an extended object in one segment or over two, and what is none.
const FIRSTS: [&[u8]; 6] = [
    &[],
    &[0x80],
    &[0x80, 0x04],
    &[0x80, 0x04, 0x24],
    &[0x80, 0x04, 0x24, 0x1B],
    &[0x80, 0x05, 0x24, 0x1B, 0x7F],
];
const SECONDS: [&[u8]; 8] = [
    &[],
    &[0x04],
    &[0x04, 0x24, 0x1B],
    &[0x1B, 0x7F],
    &[0x7F, 0xFE],
    &[0x7F, 0xFF, 0xC1],
    &[0xFE, 0xC1, 0x7F],
    &[0x00, 0x05, 0x24, 0x14, 0xC1],
];
const THIRDS: [&[u8]; 7] = [
    &[],
    &[0x7F],
    &[0x7F, 0xFE],
    &[0x7F, 0xFE, 0xC1],
    &[0x7F, 0xFF, 0xC1, 0xC2, 0xC3],
    &[0xFE, 0xC1],
    &[0x00, 0x04, 0x24, 0x14, 0xC1],
];

/// Three frames of which the second one and the third can be absorbed, every type after every other, cut at every byte of the
/// third; then the third with lengths from 0 to 12, in turn each third one.
pub fn three(tally: &mut Tally, held: &mut Held) {
    let mut turn = 0;
    for (a, b, c) in every_type() {
        for which in 0..FIRSTS.len() * SECONDS.len() * THIRDS.len() {
            turn += 1;
            let first = FIRSTS[which % FIRSTS.len()];
            let second = SECONDS[which / FIRSTS.len() % SECONDS.len()];
            let third = THIRDS[which / FIRSTS.len() / SECONDS.len()];
            let flags = [0x10, 0x50, 0x30, 0x90][turn % 4];
            let two = [framed(a, 1, first), framed(b + flags, 2, second)].concat();
            let run = [&two[..], &framed(c + 0x10, 1, third)].concat();
            for cut in two.len()..=run.len() {
                held.hold(tally, &run[..cut]);
            }
            for length in (turn as u16 % 3..=LONGEST as u16).step_by(3) {
                let run = [&two[..], &frame(length, c + 0x10, 3, third)].concat();
                held.hold(tally, &run);
            }
        }
    }
}

/// Three types, the last also none; with type 5 those where something could be absorbed behind it, or it behind another.
fn every_type() -> impl Iterator<Item = (u8, u8, u8)> {
    let all = (0..5 * 5 * 6).map(|n| (1 + n % 5, 1 + n / 5 % 5, 1 + n / 25));
    all.filter(|(a, b, c)| match (a, b) {
        (5, _) => [1, 3, 5].contains(b),
        (_, 5) => [3, 5].contains(c),
        _ => *c != 5,
    })
}

/// A run cut at every byte, and with each of a few bytes in the place of every byte.
pub fn spoilt(tally: &mut Tally, held: &mut Held, run: &[u8]) {
    for place in 0..run.len() {
        held.hold(tally, &run[..place]);
        for byte in [0, 1, 5, 6, 0x13, 0x15, 0x53, 0x7F, 0xD0, 0xFF] {
            let mut spoilt = run.to_vec();
            spoilt[place] = byte;
            held.hold(tally, &spoilt);
        }
    }
}
