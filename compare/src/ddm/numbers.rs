//! Numbers read from data, and lengths of what would be built.
use super::case::Held;
use super::rust::text;
use crate::answers::ANSWER_WORDS;
use crate::port;
use crate::{By, Chance, Tally};
use db2_proto::ddm::{DdmObject, DdmParam};

/// The three readings of data.
fn read(tally: &mut Tally, held: &mut Held, data: &[u8]) {
    let param = DdmParam {
        code_point: 0x2412,
        data: data.to_vec(),
    };
    let rust = param.as_u16().map(|n| n as u64);
    held.hold_number(tally, "as_u16", data, rust, port::as_u16);
    let rust = param.as_u32().map(|n| n as u64);
    held.hold_number(tally, "as_u32", data, rust, port::as_u32);
    // As two's complement of 64 bits.
    let rust = param.as_i32().map(|n| n as i64 as u64);
    held.hold_number(tally, "as_i32", data, rust, port::as_i32);
}

/// Every number of two bytes, alone and as the high and the low half of four; edges of four; none to five bytes, and any number
/// of words.
pub fn read_all(tally: &mut Tally, held: &mut Held) {
    for number in 0..=u16::MAX {
        let [a, b] = number.to_be_bytes();
        read(tally, held, &[a, b]);
        read(tally, held, &[a, b, 0, 1]);
        read(tally, held, &[0xFF, 0x80, a, b, 0xEE]);
    }
    let edges = [
        0,
        1,
        0x7FFF,
        0x8000,
        0xFFFF,
        0x1_0000,
        0x7FFF_FFFF,
        0x8000_0000,
        u32::MAX,
    ];
    for number in edges {
        for near in [number.wrapping_sub(1), number, number.wrapping_add(1)] {
            let bytes = [&near.to_be_bytes()[..], &[0x5A]].concat();
            for len in 0..=bytes.len() {
                for words in [ANSWER_WORDS, 0, ANSWER_WORDS - 1, ANSWER_WORDS + 1, 12] {
                    held.lent_words = words;
                    read(tally, held, &bytes[..len]);
                }
            }
        }
    }
    held.lent_words = ANSWER_WORDS;
}

pub fn random(tally: &mut Tally, held: &mut Held, chance: &mut Chance) {
    let len = chance.below(7);
    let data = chance.bytes(len);
    held.lent_words = 7 + chance.below(3);
    read(tally, held, &data);
    held.lent_words = ANSWER_WORDS;
}

/// How long an object of so much data is: every one up to 70,000 bytes, and those around each edge of the length bytes and at
/// the end of the numbers. The Rust's sum is of a Vec's length, which doesn't come near 2^64; above it is given as 2^64 - 1.
pub fn total_lengths(tally: &mut Tally) {
    let edges = [
        2_147_483_643,
        140_737_488_355_323,
        1 << 63,
        usize::MAX - 12,
        usize::MAX - 3,
    ];
    let around = edges.into_iter().flat_map(|edge| edge - 3..=edge + 3);
    for len in (0..70_000).chain(around) {
        let (by, due) = match text::header_len(len).checked_add(len) {
            Some(sum) => (By::Rust, sum),
            None => (By::Document, usize::MAX),
        };
        let input = len.to_be_bytes();
        let (object, builder) = (
            port::object_total_length(len),
            port::builder_total_length(len),
        );
        tally.held(by, "total_length", &input, object, due);
        tally.held(by, "the builder's total_length", &input, builder, due);
    }
    // An object's own call: the data are zeros that nobody looks at.
    for len in (0..200)
        .chain(32_760..32_768)
        .chain(2_147_483_640..2_147_483_648)
    {
        let (code_point, data) = (0x2412, vec![0; len]);
        let rust = DdmObject { code_point, data }.total_length();
        tally.same(
            "total_length",
            &len.to_be_bytes(),
            port::object_total_length(len),
            rust,
        );
    }
}
