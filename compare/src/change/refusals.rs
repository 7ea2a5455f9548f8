//! Requests that are tried one and all, most of them refused: short ones, continuations that start within a parameter's header,
//! raw lengths that the writer doesn't write.
use super::case::{Case, Held};
use super::frames::{continued, head, sized, wide, Cut, Head};
use super::requests::hold;
use crate::answers::ANSWER_WORDS;
use crate::ddm::lengths::headed;
use crate::ddm::lists::{good, unfit};
use crate::reader::long::each_dead;
use crate::{By, Chance, Tally};
use db2_proto::ddm::{build_ddm_object, build_param};

const HEAD: Head = [0xD0, 0xB1, 0x12, 0x34];

/// A short frame of a payload.
fn framed(payload: &[u8]) -> Vec<u8> {
    Cut::first(payload.len() + 6, HEAD, payload).bytes
}

/// An object just as long as its data.
fn object(data: &[u8]) -> Vec<u8> {
    headed(4 + data.len(), 0x2001, data)
}

/// Bytes behind an object or a frame.
const BEHIND: [u8; 8] = [0, 6, 0xD0, 0x11, 0x12, 0x34, 0, 0];

/// Short requests with each byte in the place of each byte, cut at every byte, and with bytes behind them.
pub fn spoilt(tally: &mut Tally, held: &mut Held) {
    let list = [&good()[0][..], &good()[1]].concat();
    let marked = headed(0x8004, 0x2001, &list);
    for payload in [object(&list), wide(2, 0x2001, &list), marked] {
        let frame = framed(&payload);
        for place in 0..frame.len() {
            hold(tally, held, &frame[..place], 0x2402, &[0xD1]);
            for byte in 0..=255 {
                let mut frame = frame.clone();
                frame[place] = byte;
                hold(tally, held, &frame, 0x2402, &[0xD1]);
            }
        }
        for behind in 0..=BEHIND.len() {
            let frame = [&frame[..], &BEHIND[..behind]].concat();
            hold(tally, held, &frame, 0x2402, &[0xD1]);
        }
    }
}

/// Every list of up to two good and unfit ones in an object: alone, with a byte behind the object, behind the frame, behind
/// both.
pub fn lists(tally: &mut Tally, held: &mut Held) {
    let mut pieces = vec![Vec::new()];
    pieces.extend(good());
    pieces.extend(unfit());
    for first in &pieces {
        for second in &pieces {
            let object = object(&[&first[..], second].concat());
            for which in 0..4 {
                let mut frame = framed(&[&object[..], &BEHIND[..which % 2]].concat());
                frame.extend(&BEHIND[..which / 2]);
                for code_point in 0x2401..=0x2404 {
                    hold(tally, held, &frame, code_point, &[0xD1, 0xD2, 0xD3]);
                }
            }
        }
    }
}

/// Objects of chosen raw lengths in payloads of up to 18 bytes, alone and with bytes behind the frame.
pub fn objects(tally: &mut Tally, held: &mut Held) {
    let raws = (0..=20).chain(0x7FFE..=0x8010).chain([0xFFFE, 0xFFFF]);
    for raw in raws {
        for fill in [0x00, 0x04, 0xFF] {
            let object = headed(raw, 0x2001, &[fill; 14]);
            for len in 0..=object.len() {
                for behind in [0, 1, 7] {
                    let frame = [&framed(&object[..len])[..], &BEHIND[..behind]].concat();
                    hold(tally, held, &frame, 0x0404, &[0xD1]);
                }
            }
        }
    }
}

/// A continuation that starts at each byte of a parameter's header, of good and of unfit ones, the first and the second of a
/// frame: that parameter changed, and the one behind it.
pub fn through(tally: &mut Tally, held: &mut Held, chance: &mut Chance) {
    let bytes = chance.bytes(65_536);
    for piece in [good(), unfit()].concat() {
        for (start, header, apart) in [(32_761, 4, 1), (65_526, 8, 3)] {
            for before in (0..=14).step_by(apart) {
                // The object's header has eight bytes, and the parameter before it so many.
                let len = start - before - 8 - header;
                let filler = build_param(0x2400, &bytes[..len]);
                let last = build_param(0x2409, &[0xC1; 80]);
                let payload = build_ddm_object(0x2001, &[&filler, &piece, &last[..]].concat());
                let head = head(chance);
                let frame = continued(chance, head, &payload).bytes;
                for code_point in [0x2400 + piece[3] as u16, 0x2409] {
                    let new = &bytes[..chance.below(30)];
                    hold(tally, held, &frame, code_point, new);
                }
            }
        }
    }
}

/// Bytes behind an object that ends around a continuation's start, with and without bytes behind the frame.
pub fn behind(tally: &mut Tally, held: &mut Held, chance: &mut Chance) {
    for start in [32_761, 65_526] {
        for total in start - 3..=start + 3 {
            let payload = [&sized(chance, total)[..], &BEHIND].concat();
            let mut frame = continued(chance, HEAD, &payload).bytes;
            hold(tally, held, &frame, 0x2402, &[0xD1]);
            frame.extend(&BEHIND);
            hold(tally, held, &frame, 0x2402, &[0xD1]);
        }
    }
}

/// A frame whole, cut by a byte, with bytes behind it, with its magic or its type spoilt.
fn around(tally: &mut Tally, held: &mut Held, frame: &[u8]) {
    let mut spoilt = [(2, 0xD1), (3, 0x46)].map(|(place, byte)| {
        let mut frame = frame.to_vec();
        frame[place] = byte;
        frame
    });
    spoilt[1].extend(&BEHIND);
    let longer = [frame, &[0, 2]].concat();
    let shorter = &frame[..frame.len() - 1];
    for frame in [frame, shorter, &longer, &spoilt[0], &spoilt[1]] {
        hold(tally, held, frame, 0x2402, &[0xD1; 9]);
        hold(tally, held, frame, 0x2403, &[0xD1; 9]);
    }
}

/// Raw lengths of a first segment and of a last continuation, alone and behind full ones: those that the writer doesn't write,
/// those that are never whole, and those next to them.
pub fn raws(tally: &mut Tally, held: &mut Held, chance: &mut Chance) {
    for raw in [0x7FFE, 0x7FFF, 0x8000, 0x8001, 0x8004, 0xC000, 0xFFFE] {
        let payload = sized(chance, raw - 6);
        around(tally, held, &Cut::first(raw, HEAD, &payload).bytes);
    }
    for full in [&[][..], &[0xFFFF], &[0x7FFF, 0xFFFF]] {
        for raw in [
            0, 1, 2, 3, 4, 0x7FFD, 0x7FFE, 0x7FFF, 0x8000, 0x8001, 0xC000, 0xFFFE, 0xFFFF,
        ] {
            let takes = match raw {
                0 | 1 => 0,
                0x7FFF | 0xFFFF => 32_765,
                _ => raw - 2,
            };
            let payload = sized(chance, 32_761 + 32_765 * full.len() + takes);
            let mut cut = Cut::first(0xFFFF, HEAD, &payload[..32_761]);
            let mut rest = &payload[32_761..];
            for raw in full {
                cut.push(*raw, &rest[..32_765]);
                rest = &rest[32_765..];
            }
            cut.push(raw, rest);
            around(tally, held, &cut.bytes);
        }
    }
}

/// Frames that a continuation length of 0 or 1 ends; one that stands behind another frame is never come to.
pub fn dead(tally: &mut Tally, held: &mut Held, chance: &mut Chance) {
    each_dead(chance, |run, _| hold(tally, held, run, 0x2402, &[0xD1]));
}

/// Fewer words than an answer has stay as they are, and of more only so many are laid down: done, and each refusal, in rooms of each
/// kind.
pub fn few_words(tally: &mut Tally, held: &mut Held) {
    let list = good()[1].clone();
    let mut frames = vec![vec![0, 5, 0xD0, 1, 0, 0], framed(&object(&list))];
    frames.extend(unfit().iter().map(|piece| framed(piece)));
    frames.extend(unfit().iter().map(|piece| framed(&object(piece))));
    for (place, byte) in [(1, 0xFF), (2, 0), (3, 0), (7, 4)] {
        let mut frame = frames[1].clone();
        frame[place] = byte;
        frames.push(frame);
    }
    let mut dead = Cut::first(0xFFFF, HEAD, &[0xC1; 32_761]);
    dead.push(1, &[]);
    frames.push(dead.bytes);
    // The new value of 18: headers of eight bytes before it, and as many bytes as make 65,526.
    let unreadable = vec![0xD1; 65_526 - 8 - 8];
    for words in 0..=12 {
        held.lent_words = words;
        for frame in &frames {
            for code_point in [0x2402, 0xFFFF] {
                let case = Case::request(frame, code_point, &[0xD1, 0xD2]);
                held.hold_around(tally, By::Change, case, &case.due());
            }
        }
        hold(tally, held, &frames[1], 0x2402, &unreadable);
    }
    held.lent_words = ANSWER_WORDS;
}
