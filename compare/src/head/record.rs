//! Module 1's answers for the list.
use super::{head, head_words, written};
use crate::answers::{expected, ANSWER_WORDS};
use crate::lengths::{continuation, type_words};
use crate::record::{Asked, List, FEW_WORDS};
use crate::Chance;
use db2_proto::dss::{DssFlags, DssHeader};

/// Raw lengths at both sides of each edge.
const RAWS: [u16; 18] = [
    0, 1, 2, 3, 5, 6, 7, 255, 256, 0x7FFD, 0x7FFE, 0x7FFF, 0x8000, 0x8001, 0xC000, 0xFFFD, 0xFFFE,
    0xFFFF,
];

pub fn record(list: &mut List, chance: &mut Chance) {
    lengths(list);
    format_bytes(list);
    parsed(list, chance);
    serialized(list);
}

fn lengths(list: &mut List) {
    let mut run = vec![0; 3 * 0x8000 + 64];
    for raw in RAWS {
        let [high, low] = raw.to_be_bytes();
        let head = DssHeader::parse(&[high, low, 0xD0, 2, 0, 7]).expect("a head");
        let (chunk, len) = continuation(&mut run, raw);
        let numbers = [
            head.length as u64,
            (chunk == 2) as u64,
            len as u64,
            chunk as u64,
        ];
        for (call, number) in (0..).zip(numbers) {
            list.number(Asked::new(call, &[raw as u64], &[]), number);
        }
    }
}

fn format_bytes(list: &mut List) {
    for b in 0..=255 {
        let answer = expected(type_words(b).1, ANSWER_WORDS);
        list.answer(Asked::new(4, &[b as u64], &[]), 0, &answer);
        let flags = DssFlags::from_byte(b).to_byte();
        list.number(Asked::new(5, &[b as u64], &[]), flags as u64);
    }
    for words in FEW_WORDS {
        for b in [2, 5, 6] {
            let answer = expected(type_words(b).1, words);
            list.answer(Asked::new(4, &[b as u64], &[]).words(words), 0, &answer);
        }
    }
}

fn parse(list: &mut List, bytes: &[u8], words: usize) {
    let answer = expected(head_words(bytes).1, words);
    list.answer(Asked::new(6, &[], bytes).words(words), 0, &answer);
}

/// Each raw length, every magic of a few with every format byte of a few, runs that are cut, random ones, any number of words.
fn parsed(list: &mut List, chance: &mut Chance) {
    for raw in RAWS {
        let [high, low] = raw.to_be_bytes();
        parse(list, &[high, low, 0xD0, 0x42, 0, 7], ANSWER_WORDS);
        parse(list, &[0, 10, 0xD0, 0x13, high, low, 0xC1], ANSWER_WORDS);
    }
    for magic in [0, 0xCF, 0xD0, 0xD1, 0xFF] {
        for format in [
            0, 1, 2, 3, 4, 5, 6, 15, 0x12, 0x22, 0x42, 0x72, 0x82, 0xF4, 0xF5, 0xF6,
        ] {
            parse(list, &[0, 6, magic, format, 1, 2], ANSWER_WORDS);
        }
        for len in 0..=6 {
            parse(list, &[0xFF, 0xFF, magic, 2, 3, 4][..len], ANSWER_WORDS);
        }
    }
    for _ in 0..40 {
        let bytes: Vec<u8> = (0..4 + chance.below(9)).map(|_| chance.byte()).collect();
        parse(list, &bytes, ANSWER_WORDS);
    }
    for words in FEW_WORDS {
        for bytes in [
            &[0, 6, 0xD0, 0x52, 1, 2][..],
            &[0, 6, 0xD1, 0x52, 1, 2],
            &[0, 6, 0xD0],
        ] {
            parse(list, bytes, words);
        }
    }
}

fn serialize(list: &mut List, numbers: [u16; 4], room: usize, words: usize) {
    let [length, dss_type, flags, correlation_id] = numbers;
    let head = head(length, dss_type as u8, flags as u8, correlation_id);
    let answer = written(head, room, words);
    let asked = Asked::new(7, &numbers.map(|n| n as u64), &[]);
    list.answer(asked.room(room).words(words), 0, &answer);
}

/// Types and what is none, with sets of flags, lengths and correlations; rooms of 0 to 8 bytes; any number of words.
fn serialized(list: &mut List) {
    for dss_type in [0, 1, 2, 3, 4, 5, 6, 0x11, 0x15, 0x16, 0xFF] {
        for flags in [0, 0x10, 0x20, 0x40, 0x70, 0x8F, 0xFF] {
            let room = 5 + (dss_type + flags / 16) as usize % 3;
            serialize(list, [10, dss_type, flags, 0x1234], room, ANSWER_WORDS);
        }
    }
    for raw in RAWS {
        serialize(list, [raw, 3, 0x50, raw ^ 0xFFFF], 7, ANSWER_WORDS);
    }
    for room in 0..=8 {
        serialize(list, [0x7FFF, 2, 0x40, 7], room, ANSWER_WORDS);
        serialize(list, [10, 9, 0x40, 7], room, ANSWER_WORDS);
    }
    for words in FEW_WORDS {
        for room in [5, 6] {
            serialize(list, [10, 2, 0x40, 7], room, words);
            serialize(list, [10, 9, 0x40, 7], room, words);
        }
    }
}
