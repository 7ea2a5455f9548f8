//! Calls that list all that a run has: payloads end to end in a lent room, records in a lent row. Each is made in a room and a row
//! that are just enough, and in turn in ones that are short by a byte, a word or a record, longer, or empty.
use crate::answers::{answered, done, expected, refused, Answer, Words, ANSWER_WORDS};
use crate::lent::Lent;
use crate::port::RowLoan;
use crate::{By, Tally};
pub use lattrugone::port::{Record, OBJECT_WORDS, RECORD_WORDS};

/// What is listed, in records of so many words.
pub enum Listed<const WIDTH: usize> {
    /// The answer's words, the records in order, and the payloads end to end.
    All {
        words: Words,
        records: Vec<[u64; WIDTH]>,
        payloads: Vec<u8>,
    },
    /// Every refusal but 9.
    Refused(Words),
}

/// A record: an answer's words, and document 02, W-201, "the first byte and the byte after the last one in the run".
pub fn record(words: Words, from: usize, end: usize) -> Record {
    let mut record = [0; RECORD_WORDS];
    record[..ANSWER_WORDS].copy_from_slice(&words);
    record[ANSWER_WORDS..].copy_from_slice(&[from as u64, end as u64]);
    record
}

/// A frame in words: a place, the head's length, format byte and correlation, the payload's length, segments.
pub fn frame_words(place: usize, head: [u64; 3], payload: usize, segments: u64) -> Words {
    let mut words = done(&[head[0], head[1], head[2], payload as u64, segments]);
    words[1] = place as u64;
    words
}

impl<const WIDTH: usize> Listed<WIDTH> {
    /// How many bytes and how many records are needed.
    pub fn needs(&self) -> (usize, usize) {
        match self {
            Listed::All {
                records, payloads, ..
            } => (payloads.len(), records.len()),
            Listed::Refused(_) => (0, 0),
        }
    }

    /// What a call comes to in a room of so many bytes and a row of so many words: 9 comes last, at the position as given. What
    /// is left of a row behind its last whole record is place for none.
    pub fn answer(&self, at: usize, room: usize, row: usize, words: usize) -> Answer {
        match self {
            Listed::Refused(answer) => expected(*answer, words),
            Listed::All {
                words: answer,
                records,
                payloads,
            } => {
                if payloads.len() > room || records.len() > row / WIDTH {
                    let needs = [payloads.len() as u64, records.len() as u64];
                    return expected(refused(9, at as u64, &needs), words);
                }
                expected(*answer, words)
                    .laying(payloads)
                    .listing(records.as_flattened())
            }
        }
    }
}

/// A call: its name, who says what is due, the position that it is given, 0 where it takes none, how many words are lent, and
/// how it is made.
#[derive(Clone, Copy)]
pub struct Call {
    pub name: &'static str,
    pub by: By,
    pub at: usize,
    pub words: usize,
    pub make: fn(usize, RowLoan) -> u8,
}

/// What is lent besides the run.
pub struct Rows {
    room: Lent<u8>,
    row: Lent<u64>,
    words: Lent<u64>,
    turn: usize,
}

impl Rows {
    /// Rooms of up to so many bytes, and rows of up to so many records.
    pub fn new(bytes: usize, records: usize) -> Rows {
        Rows {
            room: Lent::new(bytes),
            row: Lent::new(RECORD_WORDS * records),
            words: Lent::new(64),
            turn: 0,
        }
    }

    /// Makes a call on a run that is lent, which is these bytes, and holds what it comes to, to what is listed.
    pub fn hold<const WIDTH: usize>(
        &mut self,
        tally: &mut Tally,
        run: &mut Lent<u8>,
        bytes: &[u8],
        call: Call,
        listed: &Listed<WIDTH>,
    ) {
        let (need, records) = listed.needs();
        let words = WIDTH * records;
        self.turn += 1;
        let turn = self.turn;
        let (room, row) = match turn % 8 {
            0 => (0, 0),
            1 => (need.saturating_sub(1), words),
            2 => (need, words.saturating_sub(1)),
            3 => (need, words.saturating_sub(WIDTH)),
            4 => (need + 1 + turn % 45, words + turn % 29),
            5 => (need, words + WIDTH - 1),
            6 => (need.saturating_sub(1), words.saturating_sub(1)),
            _ => (need + 3, words + WIDTH),
        };
        for (room, row) in [(need, words), (room, row)] {
            let due = listed.answer(call.at, room, row, call.words);
            let loan = (run.again(), self.room.lend(room), self.row.lend(row));
            let port = answered(&mut self.words, call.words, |words| {
                let (run, room, row) = loan;
                let loan = RowLoan {
                    run,
                    room,
                    row,
                    words,
                };
                (call.make)(call.at, loan)
            });
            let port = port
                .with_room(&self.room, 0, due.bytes_laid())
                .with_row(&self.row, due.words_listed())
                .with_run(run, bytes);
            let numbers = [call.at, room, row].map(usize::to_be_bytes);
            let shown = &bytes[..bytes.len().min(96)];
            let input = [numbers.as_flattened(), shown].concat();
            tally.answer_by(call.by, call.name, &input, port, due);
        }
    }
}
