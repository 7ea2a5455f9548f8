//! Module 1 of document 01: heads, parsed and written. The port's functions against the Rust's DssHeader.
pub mod record;

use crate::answers::{answered, done, expected, of_error, refused, Answer, Words, ANSWER_WORDS};
use crate::lent::Lent;
use crate::port::{self, Head};
use crate::{five, By, Chance, Tally};
use db2_proto::dss::{DssFlags, DssHeader, DssType};
use db2_proto::Result;

pub fn compare(tally: &mut Tally, chance: &mut Chance, cases: u64) {
    let mut lent = Buffers {
        run: Lent::new(64),
        room: Lent::new(64),
        words: Lent::new(64),
    };
    parsed(tally, &mut lent);
    serialized(tally, &mut lent);
    few_words(tally, &mut lent);
    for _ in 0..cases {
        random(tally, &mut lent, chance);
    }
}

struct Buffers {
    run: Lent<u8>,
    room: Lent<u8>,
    words: Lent<u64>,
}

// ---- parsing

/// What the Rust reads of a head, and who says so: where it refuses a type 5, it is the head of a request with that type.
fn head_words(bytes: &[u8]) -> (By, Words) {
    let given = DssHeader::parse(bytes);
    if !five::refused(&given) {
        return (By::Rust, words_of(given));
    }
    let mut words = words_of(five::parsed(bytes));
    words[3] = five::NO_REPLY as u64;
    (By::Five, words)
}

fn words_of(head: Result<DssHeader>) -> Words {
    match head {
        Ok(head) => done(&[
            head.length as u64,
            head.dss_type.to_byte() as u64,
            head.flags.to_byte() as u64,
            head.correlation_id as u64,
        ]),
        Err(error) => of_error(&error, 0),
    }
}

fn parse(tally: &mut Tally, lent: &mut Buffers, bytes: &[u8], words: usize) {
    let run = lent.run.lend_copy(bytes);
    let port = answered(&mut lent.words, words, |words| port::head_parse(run, words));
    let port = port.with_run(&lent.run, bytes);
    let (by, due) = head_words(bytes);
    tally.answer_by(by, "head_parse", bytes, port, expected(due, words));
}

/// Every raw length, every correlation, every magic with every format byte; runs shorter than a head, and longer ones.
fn parsed(tally: &mut Tally, lent: &mut Buffers) {
    for number in 0..=u16::MAX {
        let [high, low] = number.to_be_bytes();
        parse(tally, lent, &[high, low, 0xD0, 0x42, 0, 7], ANSWER_WORDS);
        parse(tally, lent, &[0, 10, 0xD0, 0x13, high, low], ANSWER_WORDS);
        parse(tally, lent, &[0, 6, high, low, 1, 2], ANSWER_WORDS);
        parse(
            tally,
            lent,
            &[high, low, low, high, high, low],
            ANSWER_WORDS,
        );
    }
    for magic in [0xD0, 0xD1] {
        for format in [2, 5, 6] {
            let bytes = [0xFF, 0xFF, magic, format, 3, 4, 5, 6, 7];
            for len in 0..=bytes.len() {
                parse(tally, lent, &bytes[..len], ANSWER_WORDS);
            }
        }
    }
}

// ---- writing

fn head(length: u16, dss_type: u8, flags: u8, correlation_id: u16) -> Head {
    Head {
        length,
        dss_type,
        flags,
        correlation_id,
    }
}

/// The bytes of the Rust's head of these numbers; its refusal where the type's byte is none. Where it refuses a type 5, they are
/// a request's with that type.
fn head_of(head: Head) -> Result<[u8; 6]> {
    let (dss_type, no_reply) = five::stand_in(head.dss_type);
    let rust = DssHeader {
        length: head.length,
        dss_type: DssType::from_byte(dss_type)?,
        flags: DssFlags::from_byte(head.flags),
        correlation_id: head.correlation_id,
    };
    let mut bytes = rust.serialize();
    if no_reply {
        five::made(&mut bytes);
    }
    Ok(bytes)
}

/// What writing comes to: the Rust's refusal of the type, then "no room" for rooms shorter than the Rust's bytes, then those.
fn written(head: Head, room: usize, words: usize) -> Answer {
    match head_of(head) {
        Err(error) => expected(of_error(&error, 0), words),
        Ok(bytes) if room < bytes.len() => expected(refused(9, 0, &[bytes.len() as u64, 0]), words),
        Ok(bytes) => expected(done(&[bytes.len() as u64]), words).laying(&bytes),
    }
}

fn serialize(tally: &mut Tally, lent: &mut Buffers, head: Head, room: usize, words: usize) {
    let rust = written(head, room, words);
    let lent_room = lent.room.lend(room);
    let port = answered(&mut lent.words, words, |words| {
        port::head_serialize(head, lent_room, words)
    });
    let port = port.with_room(&lent.room, 0, rust.bytes_laid());
    let [high, low] = head.length.to_be_bytes();
    let [first, second] = head.correlation_id.to_be_bytes();
    let input = [
        high,
        low,
        head.dss_type,
        head.flags,
        first,
        second,
        room as u8,
    ];
    let by = five::by(&DssType::from_byte(head.dss_type));
    tally.answer_by(by, "head_serialize", &input, port, rust);
}

/// Every type with every set of flags, at chosen lengths and correlations, into rooms of 0 to 8 bytes; every length; every
/// correlation; every byte as a type with every byte as flags. What was written reads as the Rust reads it.
fn serialized(tally: &mut Tally, lent: &mut Buffers) {
    for which in 0..5 * 8 * 8 * 5 {
        let dss_type = (which % 5) as u8 + 1;
        let flags = (which / 5 % 8) as u8 * 0x10;
        let length = [0, 1, 5, 6, 0x7FFF, 0x8000, 0xFFFE, 0xFFFF][which / 40 % 8];
        let correlation_id = [0, 1, 255, 256, 65535][which / 320];
        let head = head(length, dss_type, flags, correlation_id);
        for room in 0..=8 {
            serialize(tally, lent, head, room, ANSWER_WORDS);
        }
        let bytes = lent.room.part(0, 6).to_vec();
        let written = head_of(head).expect("a type");
        let (by, due) = head_words(&written);
        let read = head_words(&bytes).1;
        tally.held(by, "head_serialize, read", &bytes, read, due);
        parse(tally, lent, &bytes, ANSWER_WORDS);
    }
    for number in 0..=u16::MAX {
        let [high, low] = number.to_be_bytes();
        serialize(tally, lent, head(number, 3, 0x50, 7), 6, ANSWER_WORDS);
        serialize(tally, lent, head(10, 4, 0x20, number), 7, ANSWER_WORDS);
        serialize(tally, lent, head(10, high, low, 7), 8, ANSWER_WORDS);
    }
}

// ---- words, and random inputs

/// Fewer words than an answer has stay as they are, and of more only so many are laid down.
fn few_words(tally: &mut Tally, lent: &mut Buffers) {
    for words in 0..=12 {
        parse(tally, lent, &[0, 6, 0xD0, 0x52, 1, 2], words);
        parse(tally, lent, &[0, 6, 0xD1, 0x52, 1, 2], words);
        parse(tally, lent, &[0, 6, 0xD0, 0x5F, 1, 2], words);
        parse(tally, lent, &[0, 6, 0xD0], words);
        for room in 0..=8 {
            serialize(tally, lent, head(10, 2, 0x40, 7), room, words);
            serialize(tally, lent, head(10, 9, 0x40, 7), room, words);
        }
    }
}

/// A random run of four to twelve bytes, mostly with the right magic, and a random head into a room of up to ten bytes.
fn random(tally: &mut Tally, lent: &mut Buffers, chance: &mut Chance) {
    let mut bytes = [0; 12];
    for b in &mut bytes {
        *b = chance.byte();
    }
    if chance.below(4) != 0 {
        bytes[2] = 0xD0;
    }
    let len = 4 + chance.below(9);
    parse(tally, lent, &bytes[..len], ANSWER_WORDS + chance.below(3));
    let head = head(
        chance.next() as u16,
        chance.byte() % 0x26,
        chance.byte(),
        chance.next() as u16,
    );
    serialize(
        tally,
        lent,
        head,
        chance.below(11),
        ANSWER_WORDS + chance.below(3),
    );
}
