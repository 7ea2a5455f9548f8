//! Long runs: frames around each edge, continuations of each kind, long segments that are absorbed.
use super::case::Held;
use super::short::{frame, framed};
use crate::{five, Chance, Tally};
use db2_proto::dss::{DssType, DssWriter};

/// The longest payloads of one to three segments; three below each are tried, and three above.
pub const EDGES: [usize; 3] = [32_761, 65_526, 98_291];
pub const AROUND: usize = 3;

/// The raw lengths of continuations that are tried: below a continuation's own two bytes, just above, and around each edge.
pub const RAWS: [u16; 14] = [
    0, 1, 2, 3, 4, 5, 6, 0x7FFD, 0x7FFE, 0x7FFF, 0x8000, 0x8001, 0xFFFE, 0xFFFF,
];

/// The raw lengths of long segments.
const LONG: [u16; 5] = [0x7FFE, 0x7FFF, 0x8000, 0x8004, 0xFFFE];

/// The Rust's own frame of a payload, by its type's number; of a type 5 it is a request with that type.
pub fn written(kind: u8, same_correlation: bool, payload: &[u8]) -> Vec<u8> {
    let (dss_type, no_reply) = five::stand_in(kind);
    let mut writer = DssWriter::new(0x0102);
    let dss_type = DssType::from_byte(dss_type).expect("a type");
    writer.write_dss_full(dss_type, true, same_correlation, payload);
    let mut frame = writer.finish();
    if no_reply {
        five::made(&mut frame);
    }
    frame
}

/// A frame of raw length 0xFFFF with continuations of these raw lengths, each with as many bytes as it takes; and where each
/// continuation starts, and the end.
pub fn continued(chance: &mut Chance, format: u8, raws: &[u16]) -> (Vec<u8>, Vec<usize>) {
    let mut bytes = frame(0xFFFF, format, 7, &chance.bytes(32_761));
    let mut places = vec![bytes.len()];
    for raw in raws {
        let takes = match raw {
            0x7FFF | 0xFFFF => 32_767,
            other => *other as usize,
        };
        bytes.extend(raw.to_be_bytes());
        bytes.extend(chance.bytes(takes.max(2) - 2));
        places.push(bytes.len());
    }
    (bytes, places)
}

/// Frames around each edge as the Rust writes them: alone, before a segment of the same correlation, before a frame; and behind
/// a frame of their type, where they have the same correlation and, of raw length 0xFFFF, still start a frame of their own.
pub fn edges(tally: &mut Tally, held: &mut Held, chance: &mut Chance) {
    for len in EDGES
        .into_iter()
        .flat_map(|edge| edge - AROUND..=edge + AROUND)
    {
        let payload = chance.bytes(len);
        for (kind, next) in (1..).zip([0, 0x13, 0x03, 0x14, 0x15]) {
            let mut run = written(kind, len % 2 == 0, &payload);
            if next != 0 {
                run.extend(framed(next, 9, &[0x7F, 0xFE, 0xC1]));
            }
            held.hold(tally, &run);
            let mut run = framed(kind, 1, &[0xAA]);
            run.extend(written(kind, true, &payload));
            held.hold(tally, &run);
        }
    }
}

/// Runs with continuations of each raw length, the first one, behind one of 0xFFFF, behind one of 0x7FFF and behind two, before
/// what stands behind them: whole, cut around each continuation's start, and with the frame's own head spoilt.
pub fn each_continued(chance: &mut Chance, behind: &[u8], mut hold: impl FnMut(&[u8])) {
    for before in [&[][..], &[0xFFFF], &[0x7FFF], &[0x7FFF, 0xFFFF]] {
        for raw in RAWS {
            let (mut run, places) = continued(chance, 0x43, &[before, &[raw]].concat());
            run.extend(behind);
            hold(&run);
            for place in places {
                for cut in [place - 1, place, place + 1, place + 2] {
                    hold(&run[..cut.min(run.len())]);
                }
            }
            run[if raw % 2 == 0 { 2 } else { 3 }] = 0xD6;
            hold(&run);
        }
    }
}

/// Runs with a frame that a continuation length of 0 or 1 ends, the first, the second or the third, and the frame's place. It
/// stands alone, behind a short one and behind a long one, which doesn't look at the next head; its own head is good, has
/// another magic or another type; and the run ends with the first byte of that length, with the length, and with a frame behind
/// it. (The salvage reading doesn't come to one that stands behind 0x7FFF, its last.)
pub fn each_dead(chance: &mut Chance, mut hold: impl FnMut(&[u8], usize)) {
    let (long, _) = continued(chance, 0x42, &[2]);
    let fronts = [Vec::new(), framed(0x42, 7, &[0xC1]), long];
    let behind = framed(0x13, 7, &[0xC1, 0xC2]);
    for full in [&[][..], &[0xFFFF], &[0x7FFF, 0xFFFF], &[0xFFFF, 0xFFFF]] {
        for raw in [0, 1] {
            let (frame, places) = continued(chance, 0x43, &[full, &[raw]].concat());
            for front in &fronts {
                let start = front.len();
                let length = start + places[full.len()];
                for (magic, format) in [(0xD0, 0x43), (0xD1, 0x43), (0xD0, 0x46)] {
                    let mut run = [&front[..], &frame, &behind].concat();
                    run[start + 2] = magic;
                    run[start + 3] = format;
                    for end in [length + 1, length + 2, run.len()] {
                        hold(&run[..end], start);
                    }
                }
            }
        }
    }
}

/// Those runs: from their first byte, from that frame on, and with the last byte arriving by itself.
pub fn dead(tally: &mut Tally, held: &mut Held, chance: &mut Chance) {
    let mut turn = 0;
    each_dead(chance, |run, start| {
        turn += 1;
        held.hold(tally, run);
        held.hold_at(tally, run, start, turn % 13);
        held.hold_arriving(tally, run, run.len() - 1);
    });
}

/// Continuations with a segment behind them that could be absorbed. A head is refused only where the frame is whole.
pub fn continuations(tally: &mut Tally, held: &mut Held, chance: &mut Chance) {
    let behind = framed(0x13, 7, &[0xC1, 0xC2]);
    each_continued(chance, &behind, |run| held.hold(tally, run));
}

/// Long segments absorbed: each raw length behind each other, with and without a marker behind 80 04, and cut by a byte.
pub fn absorbed(tally: &mut Tally, held: &mut Held, chance: &mut Chance) {
    for first in LONG {
        for second in LONG {
            for start in [&[0x80, 0x04, 0x24, 0x1B][..], &[0x80, 0x05, 0x24, 0x1B]] {
                let mut payload = chance.bytes(first as usize - 6);
                payload[..4].copy_from_slice(start);
                let mut run = frame(first, 0x02, 1, &payload);
                let mut payload = chance.bytes(second as usize - 6);
                payload[..4].copy_from_slice(&[0x7F, 0xFE + first as u8 % 2, 0, 0]);
                run.extend(frame(second, 0x53, 1, &payload));
                held.hold(tally, &run[..run.len() - 1]);
                run.extend(framed(0x13, 1, &[0x7F, 0xFF, 0xC1]));
                held.hold(tally, &run);
            }
        }
    }
}
