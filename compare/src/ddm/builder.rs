//! Building: the port's functions against the Rust's DdmBuilder and its three builders.
use super::building::{around, build, every_call, hold, input, Call};
use super::case::Held;
use super::rust::text::{self, DdmBuilder};
use crate::answers::{Bytes, ANSWER_WORDS};
use crate::{By, Chance, Tally};

/// Data of 0 to 300 bytes, and around the edges: the longest inline data, and that with a header.
fn lengths() -> impl Iterator<Item = usize> {
    (0..=300).chain(32_755..=32_775).chain(65_531..=65_540)
}

pub fn edges(tally: &mut Tally, held: &mut Held, chance: &mut Chance) {
    let bytes = chance.bytes(66_000);
    for len in lengths() {
        let from = chance.below(66_000 - len);
        let data = &bytes[from..from + len];
        let (cp, val) = (chance.next() as u16, chance.next() as u32);
        for call in every_call(cp, val) {
            around(tally, held, call, chance.below(40), data);
        }
        let content = &bytes[from..(from + len + len % 7).min(66_000)];
        let need = len + if len <= 32_763 { 4 } else { 8 };
        for room in [0, need - 1, need, need + 1 + len % 30] {
            build(tally, held, cp, len, content, room);
        }
    }
}

/// Every number of two bytes, as a code point and as a value; edges of four bytes.
pub fn numbers(tally: &mut Tally, held: &mut Held) {
    for val in 0..=u16::MAX {
        let cp = val.rotate_left(5) ^ 0x2412;
        for call in every_call(cp, (val as u32) << 16 | cp as u32) {
            hold(tally, held, call, 1, &[0xC1], 9 + val as usize % 3);
        }
        build(tally, held, val, 1, &[0xC1, 0xC2], 6);
    }
    for val in [0, 1, 0xFF, 0x100, 0x7FFF_FFFF, 0x8000_0000, u32::MAX] {
        around(tally, held, Call::AddU32 { cp: 0x2101, val }, 3, &[]);
    }
}

/// A fill mark at the room's end, beyond it, and as far beyond it as numbers go; every number of words.
pub fn marks(tally: &mut Tally, held: &mut Held) {
    let far = [1 << 32, 1 << 63, usize::MAX - 8, usize::MAX - 1, usize::MAX];
    for room in 0..=12 {
        for fill in (0..room + 4).chain(far) {
            for data in [&[][..], &[0xC1], &[0xC1, 0xC2, 0xC3]] {
                for call in every_call(0x2412, 0x0102_0304) {
                    hold(tally, held, call, fill, data, room);
                }
                build(tally, held, 0x2412, fill, data, room);
            }
        }
    }
    for words in 0..=12 {
        held.lent_words = words;
        for call in every_call(0x2412, 0x0102_0304) {
            around(tally, held, call, 9, &[0xC1, 0xC2]);
            hold(tally, held, call, 9, &[0xC1, 0xC2], ANSWER_WORDS);
        }
        for (fill, room) in [(2, 6), (2, 5), (4, 9)] {
            build(tally, held, 0x2412, fill, &[0xC1, 0xC2, 0xC3], room);
        }
    }
    held.lent_words = ANSWER_WORDS;
}

/// One builder through many calls in one room, then its object: against one builder of the Rust. What has no room is refused,
/// and the Rust isn't given it.
pub fn one_behind_the_other(tally: &mut Tally, held: &mut Held, chance: &mut Chance) {
    let long = chance.below(64) == 0;
    let size = chance.below(if long { 70_000 } else { 400 });
    let (cp, mut rust) = (chance.next() as u16, DdmBuilder::new(0));
    let (mut fill, mut room) = (0, chance.bytes(size));
    let mut holds = room.clone();
    for _ in 0..chance.below(12) {
        let len = chance.below(if long { 40_000 } else { 50 });
        let data = chance.bytes(len);
        let call = every_call(chance.next() as u16, chance.next() as u32)[chance.below(4)];
        let numbers = input(call, &[fill, len, size]);
        let mut words = [0; ANSWER_WORDS];
        let number = call.port(fill, &data, &mut room, &mut words);
        let mut next = rust.clone();
        call.rust(&mut next, &data);
        let filled = text::data_of(&next);
        let answer = match holds.get_mut(..filled.len()) {
            Some(part) => {
                part.copy_from_slice(filled);
                rust = next;
                (0, text::data_of(&rust).len())
            }
            None => (9, filled.len() - fill),
        };
        let by = if answer.0 == 0 {
            By::Rust
        } else {
            By::Document
        };
        let port = (number, words[2] as usize);
        tally.held(by, "adding", &numbers, port, answer);
        tally.same(
            "the room",
            &numbers,
            Bytes(room.clone()),
            Bytes(holds.clone()),
        );
        fill = text::data_of(&rust).len();
    }
    let need = text::header_len(fill) + fill;
    build(tally, held, cp, fill, &room, need);
    build(tally, held, cp, fill, &room, need - 1 - chance.below(need));
}

/// A random call, in a room around what it needs.
pub fn random(tally: &mut Tally, held: &mut Held, chance: &mut Chance) {
    let len = match chance.below(1000) {
        0 => 32_755 + chance.below(20),
        _ => chance.below(64),
    };
    let data = chance.bytes(len);
    let call = every_call(chance.next() as u16, chance.next() as u32)[chance.below(7)];
    let fill = chance.below(48);
    held.lent_words = 6 + chance.below(5);
    hold(
        tally,
        held,
        call,
        fill,
        &data,
        (fill + len + 8).saturating_sub(chance.below(24)),
    );
    build(
        tally,
        held,
        0x2412,
        chance.below(len + 2),
        &data,
        len + 8 - chance.below(8),
    );
    held.lent_words = ANSWER_WORDS;
}
