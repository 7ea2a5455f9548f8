//! The Rust's answers as two lists, to make the same calls again where the Rust's text isn't: of the exported calls, for a test of
//! the bindings, and of the others, for the crate replay. `compare --record FILE FILE` writes them, always the same. Where the Rust
//! has no answer, the documents' stands, as in the comparison.
//!
//! A list is numbers: how many answers, then each of them. A number below 248 is one byte; any other is 247 and how many bytes
//! it has, then these, most significant first. An answer is what is asked (the call's number, four numbers, the lengths of room,
//! row and words, the input) and what it comes to (what the call returns, twelve words, the sum of the room, that of the row).
//! Before a call all bytes of the room are A5 and all words of words and row 90, so bytes and words that a call has to leave
//! count too. An input is how many pieces it has, then these (record/input.rs).
mod input;
pub mod structs;

use crate::answers::{Answer, ANSWER_WORDS};
use crate::reader::walk::{walk, Walked};
use crate::{ddm, head, reader, salvage, writer, Chance, Tally};
pub use input::counted;
use std::collections::{BTreeMap, HashSet};

/// What fills room, row and words.
pub const BYTE: u8 = 0xA5;
const WORD: u64 = 90;

/// So many words are recorded, also where fewer are lent.
const WORDS: usize = 12;

/// Fewer words than an answer has stay as they are, and of more only so many are laid down: this many are lent, where others.
pub const FEW_WORDS: [usize; 5] = [0, 1, ANSWER_WORDS - 1, ANSWER_WORDS + 1, 12];

/// What replay has place for.
const BYTES: usize = 147_456;
const ROW: usize = 512;
const LIST: usize = 655_360;

/// From this number on no exported function makes the call.
const OTHERS: u64 = 160;

/// The calls' numbers, each with how many there are.
const CALLS: [(u64, u64); 12] = [
    (0, 8),
    (16, 7),
    (32, 4),
    (48, 5),
    (64, 2),
    (80, 5),
    (96, 2),
    (112, 5),
    (128, 5),
    (144, 3),
    (160, 4),
    (176, 3),
];

/// A call and what it is given.
#[derive(Clone, Copy)]
pub struct Asked<'a> {
    call: u64,
    numbers: [u64; 4],
    input: &'a [u8],
    room: usize,
    row: usize,
    words: usize,
}

impl<'a> Asked<'a> {
    /// A call with some numbers and an input; no room, no row and an answer's words.
    pub fn new(call: u64, numbers: &[u64], input: &'a [u8]) -> Asked<'a> {
        let mut four = [0; 4];
        four[..numbers.len()].copy_from_slice(numbers);
        Asked {
            call,
            numbers: four,
            input,
            room: 0,
            row: 0,
            words: ANSWER_WORDS,
        }
    }

    pub fn room(self, room: usize) -> Asked<'a> {
        Asked { room, ..self }
    }

    pub fn row(self, row: usize) -> Asked<'a> {
        Asked { row, ..self }
    }

    /// The same call over a row of structs.
    fn over_structs(self) -> Asked<'a> {
        let call = match self.call {
            64 => 160,
            65 => 161,
            96 => 162,
            97 => 163,
            other => panic!("call {other} fills no row"),
        };
        Asked { call, ..self }
    }

    /// Where the frame stands that a call looks at or reads, or that it ends at, by its words where it reads all.
    fn frame_at(&self, words: &[u64]) -> Option<u64> {
        match self.call {
            49 | 50 | 52 => Some(self.numbers[0]),
            51 => Some(0),
            64 | 160 if words.first() == Some(&0) => Some(words[1]),
            65 | 161 if words.first() == Some(&0) => Some(words[4]),
            _ => None,
        }
    }

    pub fn lent_words(&self) -> usize {
        self.words
    }

    pub fn words(self, words: usize) -> Asked<'a> {
        Asked { words, ..self }
    }
}

/// One list: its answers, and how many they are.
#[derive(Default)]
struct Part {
    bytes: Vec<u8>,
    count: u64,
}

/// The answers recorded so far.
pub struct List {
    /// Of the exported calls, and of the others.
    parts: [Part; 2],
    asked: HashSet<Vec<u8>>,
    /// How often each call was recorded, and how often each answer number.
    calls: BTreeMap<u64, u64>,
    numbers: BTreeMap<u64, u64>,
    /// How often each call that comes to a frame's end came to a continuation length of 0 or 1.
    dead: BTreeMap<u64, u64>,
}

/// The calls that come to a frame's end: whether it is whole, where it is, one frame, all frames, the salvage reading, and the
/// last two over structs.
const ENDS: [u64; 8] = [49, 50, 51, 52, 64, 65, 160, 161];

impl List {
    /// A call that returns a number and lays nothing down.
    pub fn number(&mut self, asked: Asked, returned: u64) {
        self.push(asked, returned, &[], (0, &[]), &[]);
    }

    /// A call that answers in words, and lays bytes down from a place of the room on.
    pub fn answer(&mut self, asked: Asked, at: usize, answer: &Answer) {
        let (number, words, room, row) = answer.parts();
        *self.numbers.entry(number as u64).or_default() += 1;
        self.push(asked, number as u64, words, (at, room), row);
    }

    /// Records an answer, once: what is returned, the words, the bytes laid down from a place of the room on, the row's words.
    pub fn push(
        &mut self,
        asked: Asked,
        returned: u64,
        words: &[u64],
        laid: (usize, &[u8]),
        row: &[u64],
    ) {
        assert!(asked.input.len() <= BYTES && asked.room <= BYTES && asked.row <= ROW);
        let mut bytes = Vec::new();
        put(&mut bytes, asked.call);
        for number in asked.numbers {
            put(&mut bytes, number);
        }
        for length in [asked.room, asked.row, asked.words] {
            put(&mut bytes, length as u64);
        }
        input::put_input(&mut bytes, asked.input);
        if !self.asked.insert(bytes.clone()) {
            return;
        }
        put(&mut bytes, returned);
        let mut all_words = [WORD; WORDS];
        all_words[..words.len()].copy_from_slice(words);
        for word in all_words {
            put(&mut bytes, word);
        }
        let mut room = vec![BYTE; asked.room];
        let (at, part) = laid;
        if !part.is_empty() {
            room[at..at + part.len()].copy_from_slice(part);
        }
        put(&mut bytes, sum(room.iter().map(|b| *b as u64)));
        let mut all_row = vec![WORD; asked.row];
        all_row[..row.len()].copy_from_slice(row);
        put(&mut bytes, sum(all_row.into_iter()));
        let part = &mut self.parts[(asked.call >= OTHERS) as usize];
        part.bytes.extend(bytes);
        part.count += 1;
        *self.calls.entry(asked.call).or_default() += 1;
        let at = asked.frame_at(words).unwrap_or(u64::MAX) as usize;
        let rest = asked.input.get(at..).unwrap_or_default();
        if let Walked::Dead { .. } = walk(rest) {
            *self.dead.entry(asked.call).or_default() += 1;
        }
    }

    /// Every call and every answer number occurs, and every call that comes to a frame's end came to a length of 0 or 1.
    fn is_full(&self) -> bool {
        let mut calls = CALLS.iter().flat_map(|(from, count)| *from..from + count);
        calls.all(|call| self.calls.contains_key(&call))
            && (0..=11).chain([16]).all(|n| self.numbers.contains_key(&n))
            && ENDS.iter().all(|call| self.dead.contains_key(call))
    }
}

/// A number as the list has it.
fn put(bytes: &mut Vec<u8>, number: u64) {
    if number < 248 {
        bytes.push(number as u8);
        return;
    }
    let spelled = number.to_be_bytes();
    let zeros = number.leading_zeros() as usize / 8;
    bytes.push(247 + (8 - zeros) as u8);
    bytes.extend(&spelled[zeros..]);
}

/// 64-bit FNV-1a, of words with a word in the place of a byte; 0 of nothing.
pub fn sum(units: impl ExactSizeIterator<Item = u64>) -> u64 {
    if units.len() == 0 {
        return 0;
    }
    units.fold(0xCBF2_9CE4_8422_2325, |sum, unit| {
        (sum ^ unit).wrapping_mul(0x100_0000_01B3)
    })
}

/// Records the lists into two files; what the Rust says is held to the documents on the way, as in the comparison.
pub fn record(tally: &mut Tally, paths: &[String; 2]) {
    let mut list = List {
        parts: Default::default(),
        asked: HashSet::new(),
        calls: BTreeMap::new(),
        numbers: BTreeMap::new(),
        dead: BTreeMap::new(),
    };
    let mut chance = Chance(0x9E37_79B9_7F4A_7C15);
    head::record::record(&mut list, &mut chance);
    writer::record::record(&mut list);
    reader::record::record(&mut list, tally, &mut chance);
    salvage::record::record(&mut list, &mut chance);
    ddm::record::record(&mut list, tally, &mut chance);
    println!("answers by call: {:?}", list.calls);
    println!("answers by number: {:?}", list.numbers);
    println!("at a continuation length of 0 or 1: {:?}", list.dead);
    assert!(tally.different == 0, "the documents and the Rust differ");
    assert!(list.is_full(), "a call or an answer doesn't occur");
    for (part, path) in list.parts.iter().zip(paths) {
        let mut bytes = Vec::new();
        put(&mut bytes, part.count);
        bytes.extend(&part.bytes);
        println!("{} answers in {} bytes", part.count, bytes.len());
        std::fs::write(path, &bytes).expect("a file that can be written");
    }
    let others = list.parts[1].bytes.len();
    assert!(others < LIST, "replay has no place for so long a list");
}
