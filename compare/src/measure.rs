//! Measuring and taking one frame (document 02, W-208), by the reader's rules and by salvage's: both calls held to what the frame's
//! reading is. By the reader's it is what `next_frame` is held to, the running Rust's; by salvage's the model's. "Measuring gives all
//! but 9, taking all, in the present order."
use crate::answers::answered;
use crate::lent::Lent;
use crate::reader::rust::Read;
use crate::{port, shown, Tally};

/// The number that the reader's rules go by. Any other is salvage's.
const READER: u8 = 0;

/// What is lent to both: a run and a copy of it to hold it to, a room and words, and so many of these.
pub struct Pair<'a> {
    pub run: &'a mut Lent<u8>,
    pub bytes: &'a [u8],
    pub room: &'a mut Lent<u8>,
    pub words: &'a mut Lent<u64>,
    pub lent_words: usize,
}

impl Pair<'_> {
    /// By the reader's rules.
    pub fn reader(&mut self, tally: &mut Tally, at: usize, read: &Read, turn: usize) {
        tally.dead.note("measure_frame", self.bytes, at);
        tally.dead.note("take_frame", self.bytes, at);
        self.hold(tally, READER, at, read, turn);
    }

    /// By salvage's rules, by each of their numbers in turn.
    pub fn salvage(&mut self, tally: &mut Tally, at: usize, read: &Read, turn: usize) {
        let rules = 1 + (turn % 255) as u8;
        self.hold(tally, rules, at, read, turn);
    }

    /// Measures the frame at a position, and takes it: into a room that is just enough, and in turn into a longer one, one that is
    /// short by one, an empty one.
    fn hold(&mut self, tally: &mut Tally, rules: u8, at: usize, read: &Read, turn: usize) {
        self.measure(tally, rules, at, read);
        let need = read.payload_len();
        let room = match turn % 6 {
            0 => 0,
            1 => need + 1 + turn % 45,
            2 => need.saturating_sub(1),
            _ => need,
        };
        self.take(tally, rules, at, read, room);
    }

    /// What the case is, for the line of a difference: rules, position, the room's length, the run or its first bytes.
    fn input(&self, rules: u8, at: usize, room: usize) -> Vec<u8> {
        let (at, room) = (at.to_be_bytes(), room.to_be_bytes());
        [&[rules], &at[..], &room, shown(self.bytes)].concat()
    }

    fn measure(&mut self, tally: &mut Tally, rules: u8, at: usize, read: &Read) {
        let due = read.measured(at, self.lent_words);
        let run = self.run.again();
        let port = answered(self.words, self.lent_words, |words| {
            port::measure_frame(rules, run, at, words)
        });
        let port = port.with_run(self.run, self.bytes);
        let input = self.input(rules, at, 0);
        tally.answer_by(read.by, "measure_frame", &input, port, due);
    }

    fn take(&mut self, tally: &mut Tally, rules: u8, at: usize, read: &Read, room: usize) {
        let due = read.answer(at, room, self.lent_words);
        let (run, lent) = (self.run.again(), self.room.lend(room));
        let port = answered(self.words, self.lent_words, |words| {
            port::take_frame(rules, run, at, lent, words)
        });
        let port = port
            .with_room(self.room, 0, due.bytes_laid())
            .with_run(self.run, self.bytes);
        let input = self.input(rules, at, room);
        tally.answer_by(read.by, "take_frame", &input, port, due);
    }
}
