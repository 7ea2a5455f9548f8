//! The salvage reading, which the Rust doesn't have: the port's against a model written from the documents alone, on damaged runs of
//! every kind; and demand 3 directly.
mod demand;
pub mod model;
pub mod record;
mod runs;

use crate::answers::{done, refused, Words, ANSWER_WORDS};
use crate::lent::Lent;
use crate::measure::Pair;
use crate::reader::rust::Read;
use crate::rows::{frame_words, record, Call, Listed, Rows, RECORD_WORDS};
use crate::{port, By, Chance, Tally};
use model::{Entry, Frame, Head, Salvage, Stood};

/// The longest run, and the most entries of one.
const MOST: usize = 700_000;
const ENTRIES: usize = 512;

pub fn compare(tally: &mut Tally, chance: &mut Chance, cases: u64) {
    let mut held = Held {
        run: Lent::new(MOST),
        rows: Rows::new(MOST, ENTRIES),
        room: Lent::new(MOST),
        words: Lent::new(64),
        turn: 0,
    };
    runs::paper(tally, &mut held);
    runs::few_words(tally, &mut held);
    runs::tails(tally, &mut held);
    runs::three(tally, &mut held);
    runs::edges(tally, &mut held, chance);
    runs::continuations(tally, &mut held, chance);
    runs::many(tally, &mut held);
    demand::sizes(tally, &mut held, chance);
    for case in 0..cases {
        runs::random(tally, &mut held, chance);
        if case % 4 == 0 {
            demand::random(tally, &mut held, chance);
        }
    }
}

/// What is lent to the port.
struct Held {
    run: Lent<u8>,
    rows: Rows,
    /// For one entry by itself, another one in each run.
    room: Lent<u8>,
    words: Lent<u64>,
    turn: usize,
}

impl Held {
    /// Holds the port to the model on a run.
    fn hold(&mut self, tally: &mut Tally, run: &[u8]) {
        self.hold_in(tally, run, ANSWER_WORDS)
    }

    /// The same with so many words lent.
    fn hold_in(&mut self, tally: &mut Tally, run: &[u8], words: usize) {
        let salvage = model::salvage(run);
        tally.dead.note("salvage", run, salvage.tail);
        let listed = listed(&salvage);
        let call = Call {
            name: "salvage",
            by: By::Model,
            at: 0,
            words,
            make: |_, loan| port::salvage(loan),
        };
        self.hold_to(tally, run, call, &listed);
        self.one(tally, run, words, &salvage);
    }

    /// One entry of a run in turn, or what stands at its tail, measured and taken by itself: a frame, why it is refused, or why it
    /// isn't whole.
    fn one(&mut self, tally: &mut Tally, run: &[u8], words: usize, salvage: &Salvage) {
        self.turn += 1;
        let entry = salvage.entries.get(self.turn % (salvage.entries.len() + 1));
        let at = entry.map_or(salvage.tail, |stood| stood.from);
        let mut pair = Pair {
            run: &mut self.run,
            bytes: run,
            room: &mut self.room,
            words: &mut self.words,
            lent_words: words,
        };
        pair.salvage(tally, at, &Read::salvaged(run, at), self.turn);
    }

    /// Holds the port to a list.
    fn hold_to(
        &mut self,
        tally: &mut Tally,
        run: &[u8],
        call: Call,
        listed: &Listed<RECORD_WORDS>,
    ) {
        self.run.lend_copy(run);
        self.rows.hold(tally, &mut self.run, run, call, listed)
    }
}

/// What the model hands out as the port lays it down: how many entries, how many bytes, the tail; a record for each entry.
fn listed(salvage: &Salvage) -> Listed<RECORD_WORDS> {
    let (mut records, mut payloads) = (Vec::new(), Vec::new());
    for Stood { from, end, entry } in &salvage.entries {
        let words = match entry {
            Entry::Frame(frame) => of_frame(frame, payloads.len()),
            Entry::Refused(r) => refused(r.number as u64, r.place as u64, &[r.value as u64]),
        };
        records.push(record(words, *from, *end));
        if let Entry::Frame(frame) = entry {
            payloads.extend_from_slice(&frame.payload);
        }
    }
    let tail = salvage.tail as u64;
    Listed::All {
        words: done(&[records.len() as u64, payloads.len() as u64, tail]),
        records,
        payloads,
    }
}

/// A frame's words, with its payload's place.
fn of_frame(frame: &Frame, place: usize) -> Words {
    let head = head_words(&frame.head);
    frame_words(place, head, frame.payload.len(), frame.segments as u64)
}

/// Length, the format byte, correlation.
pub fn head_words(head: &Head) -> [u64; 3] {
    let flag = |set: bool, bit: u64| if set { bit } else { 0 };
    let format = head.kind as u64
        + flag(head.chained, 0x40)
        + flag(head.continue_on_error, 0x20)
        + flag(head.same_correlation, 0x10);
    [head.length as u64, format, head.correlation as u64]
}
