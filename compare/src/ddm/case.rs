//! One input through a call of the port: in a room that is just enough, and in turn in a longer one, one that is short by one,
//! an empty one.
use super::objects::{self, Found};
use super::rust::{marshaled, text};
use crate::answers::{answered, done, expected, refused, Answer, Words, ANSWER_WORDS};
use crate::lent::Lent;
use crate::port;
use crate::rows::OBJECT_WORDS;
use crate::{shown, Tally};

/// The longest run and the longest room.
pub const MOST: usize = 200_000;

/// The most records that a row has.
const RECORDS: usize = 2000;

/// What is lent to the port, and how many words are.
pub struct Held {
    pub run: Lent<u8>,
    pub room: Lent<u8>,
    pub row: Lent<u64>,
    pub words: Lent<u64>,
    turn: usize,
    pub lent_words: usize,
}

impl Held {
    pub fn new() -> Held {
        Held {
            run: Lent::new(MOST),
            room: Lent::new(MOST),
            row: Lent::new(OBJECT_WORDS * RECORDS),
            words: Lent::new(64),
            turn: 0,
            lent_words: ANSWER_WORDS,
        }
    }

    /// Another number each time, so that every call comes to each choice.
    pub fn turn(&mut self) -> usize {
        self.turn += 1;
        self.turn.wrapping_mul(0x9E37_79B9_7F4A_7C15) >> 40
    }

    /// Just enough, and another length in turn.
    fn lengths(&mut self, need: usize) -> [usize; 2] {
        let turn = self.turn();
        let other = match turn % 4 {
            0 => 0,
            1 => need + 1 + turn % 45,
            _ => need.saturating_sub(1),
        };
        [need, other]
    }

    /// What the port should come to.
    pub fn answer(&self, words: Words) -> Answer {
        expected(words, self.lent_words)
    }

    /// Makes a call that lends data and words.
    pub fn look(&mut self, data: &[u8], call: impl FnOnce(&[u8], &mut [u64]) -> u8) -> Answer {
        let lent = self.run.lend_copy(data);
        let port = answered(&mut self.words, self.lent_words, |words| call(lent, words));
        port.with_run(&self.run, data)
    }

    /// Makes a call that lends data, a room and words, and is to lay so many bytes down from a place on.
    pub fn take(
        &mut self,
        data: &[u8],
        room: usize,
        (at, laid): (usize, usize),
        call: impl FnOnce(&[u8], &mut [u8], &mut [u64]) -> u8,
    ) -> Answer {
        let lent = self.run.lend_copy(data);
        let lent_room = self.room.lend(room);
        let port = answered(&mut self.words, self.lent_words, |words| {
            call(lent, lent_room, words)
        });
        port.with_room(&self.room, at, laid)
            .with_run(&self.run, data)
    }

    // ---- lengths, numbers, markers

    pub fn hold_length(&mut self, tally: &mut Tally, bytes: &[u8]) {
        let rust = marshaled(tally, bytes);
        let rust = self.answer(rust);
        let port = self.look(bytes, port::parse_marshaled_length);
        tally.answer("parse_marshaled_length", shown(bytes), port, rust);
    }

    /// A number read from data; 11 where the Rust gives none.
    pub fn hold_number(
        &mut self,
        tally: &mut Tally,
        what: &str,
        data: &[u8],
        rust: Option<u64>,
        call: impl FnOnce(&[u8], &mut [u64]) -> u8,
    ) {
        let rust = rust.map_or(refused(11, 0, &[]), |number| done(&[number]));
        let rust = self.answer(rust);
        let port = self.look(data, call);
        tally.answer(what, shown(data), port, rust);
    }

    pub fn hold_strip(&mut self, tally: &mut Tally, data: &[u8]) {
        let kept = text::stripped(data);
        let need = kept.len();
        for room in self.lengths(need) {
            let rust = match room < need {
                true => self.answer(refused(9, 0, &[need as u64, 0])),
                false => self.answer(done(&[need as u64])).laying(&kept),
            };
            let laid = (0, rust.bytes_laid());
            let port = self.take(data, room, laid, port::strip_markers);
            tally.answer("strip_markers", &input(data, room), port, rust);
        }
    }

    // ---- objects and parameters

    /// The object at a place.
    pub fn hold_object(&mut self, tally: &mut Tally, run: &[u8], at: usize) {
        let found = objects::object(tally, run, at);
        self.hold_found(tally, "object", run, at, &found, |run, work, words| {
            port::object(run, at, work, words)
        });
    }

    /// An object or a parameter, whose refusal 9 has this place.
    pub fn hold_found(
        &mut self,
        tally: &mut Tally,
        what: &str,
        run: &[u8],
        place: usize,
        found: &Found,
        call: impl Fn(&[u8], &mut [u8], &mut [u64]) -> u8,
    ) {
        let need = found.as_ref().map_or(0, |item| item.work().len());
        for room in self.lengths(need) {
            let rust = match found {
                Err(refusal) => self.answer(*refusal),
                Ok(_) if room < need => self.answer(refused(9, place as u64, &[need as u64, 0])),
                Ok(item) => self.answer(item.words(0)).laying(item.work()),
            };
            let laid = (0, rust.bytes_laid());
            let port = self.take(run, room, laid, &call);
            tally.answer(what, &input(run, room), port, rust);
        }
    }
}

/// What a case is, for the line of a difference: a number, and the data or its first bytes.
pub fn input(data: &[u8], number: usize) -> Vec<u8> {
    [&number.to_be_bytes(), shown(data)].concat()
}
