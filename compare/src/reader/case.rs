//! One run, read by both: each call at each position that the Rust comes to, then all frames at once.
use super::all::{listed, to_end, ByFrame};
use super::rust::{end, next, position, Came, Read};
use super::SHORT;
use crate::answers::{answered, expected, refused, Answer, Words, ANSWER_WORDS};
use crate::lent::Lent;
use crate::measure::Pair;
use crate::rows::{Call, Listed, Rows, RECORD_WORDS};
use crate::{port, shown, By, Tally};
use db2_proto::dss::DssReader;

/// The longest run and the longest room.
pub const MOST: usize = 700_000;

/// The most frames of a run.
const FRAMES: usize = 64;

/// What is lent to the port.
pub struct Held {
    run: Lent<u8>,
    room: Lent<u8>,
    words: Lent<u64>,
    rows: Rows,
    turn: usize,
}

impl Held {
    pub fn new() -> Held {
        Held {
            run: Lent::new(MOST),
            room: Lent::new(MOST),
            words: Lent::new(64),
            rows: Rows::new(MOST, FRAMES),
            turn: 0,
        }
    }

    /// Lends a run.
    fn lend<'a>(&'a mut self, run: &'a [u8]) -> Case<'a> {
        self.run.lend_copy(run);
        Case {
            held: self,
            run,
            words: ANSWER_WORDS,
        }
    }

    /// Reads a run frame by frame, by each call, until one is refused; then all of it.
    pub fn hold(&mut self, tally: &mut Tally, run: &[u8]) {
        self.hold_in(tally, run, ANSWER_WORDS)
    }

    /// The same with so many words lent.
    pub fn hold_in(&mut self, tally: &mut Tally, run: &[u8], words: usize) {
        let mut case = self.lend(run);
        case.words = words;
        case.first(tally);
        let mut reader = DssReader::new(run.to_vec());
        let mut by_frame = ByFrame::default();
        loop {
            let at = position(&reader, run);
            case.look(tally, &reader, at);
            let read = next(tally, &mut reader, run, 0);
            case.next(tally, at, &read);
            if !by_frame.takes(at, read) {
                return case.all(tally, 0, listed(run, 0, &by_frame));
            }
        }
    }

    /// Reads at a place that need not be a frame's: the Rust has the bytes from there on. Beyond the run it is 10.
    pub fn hold_at(&mut self, tally: &mut Tally, run: &[u8], at: usize, words: usize) {
        let mut case = self.lend(run);
        case.words = words;
        let Some(rest) = run.get(at..) else {
            case.look_beyond(tally, at);
            let answer = beyond(at, run.len());
            case.next(tally, at, &Read::refused(answer));
            return case.all(tally, at, (By::Rust, Listed::Refused(answer)));
        };
        let mut reader = DssReader::new(rest.to_vec());
        case.look(tally, &reader, at);
        let read = next(tally, &mut reader, rest, at);
        case.next(tally, at, &read);
        let by_frame = to_end(tally, &mut reader, rest, at, read);
        case.all(tally, at, listed(run, at, &by_frame));
    }

    /// A run that arrives in two parts: what the Rust's `extend` adds is a longer run at the same position. What the first part
    /// refuses but with 1 stays refused: nothing is read on, and 16 is answered again.
    pub fn hold_arriving(&mut self, tally: &mut Tally, run: &[u8], first: usize) {
        let mut reader = DssReader::new(run[..first].to_vec());
        let mut part = &run[..first];
        let mut dead = None;
        loop {
            let at = position(&reader, part);
            let mut case = self.lend(part);
            case.look(tally, &reader, at);
            let read = next(tally, &mut reader, part, 0);
            let read = dead.take().map_or(read, Read::refused);
            case.next(tally, at, &read);
            if let Came::Refused(answer) = read.came {
                let not_whole = answer[0] == 1 || answer[0] == 16;
                if !not_whole || part.len() == run.len() {
                    return;
                }
                dead = (answer[0] == 16).then_some(answer);
                reader.extend(&run[first..]);
                part = run;
            }
        }
    }
}

/// 10, of a position.
pub fn beyond(at: usize, len: usize) -> Words {
    refused(10, at as u64, &[at as u64, len as u64])
}

/// A run that is lent, and how many words are.
struct Case<'a> {
    held: &'a mut Held,
    run: &'a [u8],
    words: usize,
}

impl Case<'_> {
    /// What the case is, for the line of a difference: position, the room's length, the run or its first bytes.
    fn input(&self, at: usize, room: usize) -> Vec<u8> {
        [&at.to_be_bytes(), &room.to_be_bytes(), shown(self.run)].concat()
    }

    /// Makes a call that lends the run and the words.
    fn call(&mut self, call: impl FnOnce(&[u8], &mut [u64]) -> u8) -> Answer {
        let Held { run, words, .. } = &mut *self.held;
        let lent = run.again();
        let port = answered(words, self.words, |words| call(lent, words));
        port.with_run(run, self.run)
    }

    fn first(&mut self, tally: &mut Tally) {
        tally.dead.note("first_complete_frame_len", self.run, 0);
        let due = expected(end(tally, self.run, 0), self.words);
        let port = self.call(port::first_frame_end);
        tally.answer("first_complete_frame_len", shown(self.run), port, due);
    }

    /// What the calls say that read nothing: what remains, whether a frame is whole, where it ends.
    fn look(&mut self, tally: &mut Tally, reader: &DssReader, at: usize) {
        let run = self.held.run.again();
        let port = (port::remaining(run, at), port::has_frame(run, at));
        let rust = (reader.remaining(), reader.has_complete_frame() as u8);
        tally.same("remaining, has_complete_frame", shown(self.run), port, rust);
        tally.dead.note("has_complete_frame", self.run, at);
        let due = expected(end(tally, self.run, at), self.words);
        let port = self.call(|run, words| port::frame_end(run, at, words));
        tally.answer("complete_frame_len", shown(self.run), port, due);
        tally.dead.note("complete_frame_len", self.run, at);
    }

    /// The same beyond the run.
    fn look_beyond(&mut self, tally: &mut Tally, at: usize) {
        let run = self.held.run.again();
        let port = (port::remaining(run, at), port::has_frame(run, at));
        tally.held(
            By::Document,
            "remaining, has_complete_frame",
            shown(self.run),
            port,
            (0, 0),
        );
        let rust = expected(beyond(at, self.run.len()), self.words);
        let port = self.call(|run, words| port::frame_end(run, at, words));
        tally.answer("complete_frame_len", shown(self.run), port, rust);
    }

    /// Reads a frame: into a room that is just enough, and in turn into a longer one, one that is short by one, an empty one.
    fn next(&mut self, tally: &mut Tally, at: usize, read: &Read) {
        tally.dead.note("next_frame", self.run, at);
        let need = read.payload_len();
        self.held.turn += 1;
        let turn = self.held.turn;
        self.next_in(tally, at, read, need);
        match turn % 4 {
            0 => self.next_in(tally, at, read, 0),
            1 => self.next_in(tally, at, read, need + 1 + turn % 45),
            _ if need > 0 => self.next_in(tally, at, read, need - 1),
            _ => (),
        }
        // Of short runs, which are many and alike, one in four.
        if self.run.len() > SHORT || turn % 4 == 0 {
            self.pair(tally, at, read, turn / 4);
        }
    }

    /// The same frame measured and taken, by the reader's rules; and what stands there by salvage's. Beyond the run both are refused.
    fn pair(&mut self, tally: &mut Tally, at: usize, read: &Read, turn: usize) {
        let salvaged = match at <= self.run.len() {
            true => Read::salvaged(self.run, at),
            false => Read::refused(beyond(at, self.run.len())),
        };
        let Held {
            run, room, words, ..
        } = &mut *self.held;
        let mut pair = Pair {
            run,
            bytes: self.run,
            room,
            words,
            lent_words: self.words,
        };
        pair.reader(tally, at, read, turn);
        pair.salvage(tally, at, &salvaged, turn);
    }

    fn next_in(&mut self, tally: &mut Tally, at: usize, read: &Read, room: usize) {
        let rust = read.answer(at, room, self.words);
        let Held {
            run,
            words,
            room: lent,
            ..
        } = &mut *self.held;
        let (lent_run, lent_room) = (run.again(), lent.lend(room));
        let port = answered(words, self.words, |words| {
            port::next_frame(lent_run, at, lent_room, words)
        });
        let port = port
            .with_room(lent, 0, rust.bytes_laid())
            .with_run(run, self.run);
        tally.answer_by(read.by, "next_frame", &self.input(at, room), port, rust);
    }

    /// All frames from a position on.
    fn all(&mut self, tally: &mut Tally, at: usize, (by, listed): (By, Listed<RECORD_WORDS>)) {
        if let Listed::All { words, .. } = &listed {
            tally
                .dead
                .note("read_all_frames", self.run, words[1] as usize);
        }
        let Held { run, rows, .. } = &mut *self.held;
        let call = Call {
            name: "read_all_frames",
            by,
            at,
            words: self.words,
            make: port::read_all_frames,
        };
        rows.hold(tally, run, self.run, call, &listed);
    }
}
