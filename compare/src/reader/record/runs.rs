//! The runs that are recorded.
use crate::reader::long::written;
use crate::reader::short::{frame, framed};
use crate::reader::{runs, PAPER};
use crate::record::counted;
use crate::Chance;

/// Document 01's cases and every other pair of them, damaged and cut ones, frames around each edge, continuations, lengths of 0
/// and 1 among them, long segments, random ones. The salvage reading reads the same.
pub fn all(chance: &mut Chance) -> Vec<Vec<u8>> {
    let mut all = Vec::new();
    for (i, first) in PAPER.into_iter().enumerate() {
        all.push(first.to_vec());
        for second in PAPER.into_iter().skip(i % 2).step_by(2) {
            all.push([first, second].concat());
        }
    }
    for _ in 0..66 {
        let mut run = runs::random(chance, usize::MAX);
        if chance.below(2) == 0 {
            run.damage(chance);
        }
        if chance.below(3) == 0 {
            let end = run.place(chance, 24).min(run.bytes.len());
            run.bytes.truncate(end);
        }
        all.push(run.bytes);
    }
    all.extend(edges());
    all.extend(continuations());
    all.extend(absorbed());
    for (full, raw) in [(0, 0), (0, 1), (2, 0), (2, 1)] {
        all.extend(dead(full, raw));
    }
    all
}

/// The payload lengths at both sides of each edge.
const EDGES: [usize; 9] = [
    32_760, 32_761, 32_762, 65_525, 65_526, 65_527, 98_290, 98_291, 98_292,
];

/// Frames around each edge as the Rust writes them: alone, before a segment that could be absorbed, behind a frame of their
/// type.
fn edges() -> Vec<Vec<u8>> {
    let mut all = Vec::new();
    for (i, len) in EDGES.into_iter().enumerate() {
        let kind = [1, 2, 3, 5][i % 4];
        let alone = written(kind, true, &counted(len, 7 * i as u16));
        all.push(alone[..alone.len() - 1].to_vec());
        all.push([&alone[..], &framed(0x13, 9, &[0x7F, 0xFE, 0xC1])].concat());
        all.push([&framed(kind, 1, &[0xAA])[..], &alone].concat());
        all.push(alone);
    }
    all
}

/// The raw lengths of continuations.
const RAWS: [u16; 11] = [
    0, 1, 2, 3, 0x7FFD, 0x7FFE, 0x7FFF, 0x8000, 0x8001, 0xFFFE, 0xFFFF,
];

/// Continuations of each raw length, the first one or behind a full one, with a frame behind them; cut in and behind the length.
fn continuations() -> Vec<Vec<u8>> {
    let mut all = Vec::new();
    for (i, raw) in RAWS.into_iter().enumerate() {
        let takes = if [0x7FFF, 0xFFFF].contains(&raw) {
            32_767
        } else {
            raw as usize
        };
        let mut run = frame(0xFFFF, 0x43, 7, &counted(32_761, i as u16));
        if raw < 0x8000 && i % 2 == 0 {
            run.extend([[0x7F, 0xFF], [0xFF, 0xFF]][i / 2 % 2]);
            run.extend(counted(32_765, 99));
        }
        let place = run.len();
        run.extend(raw.to_be_bytes());
        run.extend(counted(takes.max(2) - 2, 1000));
        all.push(run[..place + 1].to_vec());
        all.push(run[..run.len() - 1].to_vec());
        run.extend(framed(0x13, 7, &[0xC1, 0xC2]));
        run[3] = if i % 4 == 3 { 0xD6 } else { 0x43 };
        all.push(run);
    }
    all
}

/// Long segments absorbed, with and without a marker behind 80 04, and one cut by a byte.
fn absorbed() -> Vec<Vec<u8>> {
    let mut all = Vec::new();
    for (first, second) in [
        (0x7FFE, 0x8004),
        (0x8000, 0x7FFF),
        (0xFFFE, 0x7FFE),
        (0x7FFF, 0xFFFE),
    ] {
        for start in [[0x80, 0x04], [0x80, 0x05]] {
            let payload = [&start[..], &counted(first as usize - 8, 5)].concat();
            let mut run = frame(first, 0x02, 1, &payload);
            let payload = [
                &[0x7F, 0xFE + first as u8 % 2, 0, 0][..],
                &counted(second as usize - 10, 6),
            ];
            run.extend(frame(second, 0x53, 1, &payload.concat()));
            all.push(run[..run.len() - 1].to_vec());
            run.extend(framed(0x13, 1, &[0x7F, 0xFF, 0xC1]));
            all.push(run);
        }
    }
    all
}

/// A continuation length of 0 or 1 behind so many full ones: the run ends with its first byte, with the length, with a frame
/// behind it; that behind another frame; and with another magic.
pub fn dead(full: usize, raw: u8) -> Vec<Vec<u8>> {
    let mut run = frame(0xFFFF, 0x43, 7, &counted(32_761, 11));
    for i in 0..full {
        run.extend([[0x7F, 0xFF], [0xFF, 0xFF]][i % 2]);
        run.extend(counted(32_765, 12));
    }
    let place = run.len();
    run.extend([0, raw]);
    run.extend(framed(0x13, 7, &[0xC1, 0xC2]));
    let mut all = Vec::new();
    for end in [place + 1, place + 2, run.len()] {
        all.push(run[..end].to_vec());
    }
    all.push([&framed(0x42, 7, &[0xC1])[..], &run].concat());
    run[2] = 0xD1;
    all.push(run[..place + 2].to_vec());
    all.push(run);
    all
}
