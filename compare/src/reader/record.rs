//! Module 3's answers for the list: runs read call by call, then all frames at once.
pub mod runs;

use super::all::{listed, to_end};
use super::case::beyond;
use super::rust::{end, next, position, Came, Read};
use super::PAPER;
use crate::answers::{expected, ANSWER_WORDS};
use crate::record::{structs, Asked, List, FEW_WORDS};
use crate::rows::RECORD_WORDS;
use crate::{Chance, Tally};
use db2_proto::dss::DssReader;

pub fn record(list: &mut List, tally: &mut Tally, chance: &mut Chance) {
    let mut turn = 0;
    for run in runs::all(chance) {
        turn += 1;
        whole(list, tally, &run, turn);
    }
    for count in structs::AROUND {
        all_at(list, tally, &PAPER[1].repeat(count), 0, ANSWER_WORDS, 4);
    }
    positions(list, tally);
    few_words(list, tally);
}

/// What the calls say that read nothing.
fn look(
    list: &mut List,
    tally: &mut Tally,
    reader: &DssReader,
    run: &[u8],
    at: usize,
    words: usize,
) {
    let asked = |call: u64| Asked::new(call, &[at as u64], run).words(words);
    list.number(asked(48), reader.remaining() as u64);
    list.number(asked(49), reader.has_complete_frame() as u64);
    list.answer(asked(50), 0, &expected(end(tally, run, at), words));
}

/// Reads a frame: into a room that is just enough, and into one that is short by one, longer or empty.
fn read_in(list: &mut List, run: &[u8], at: usize, read: &Read, words: usize, turn: usize) {
    let need = read.payload_len();
    let other = [need.saturating_sub(1), need + 5, 0][turn % 3];
    for room in [need, other] {
        let asked = Asked::new(52, &[at as u64], run).room(room).words(words);
        list.answer(asked, 0, &read.answer(at, room, words));
    }
}

/// A run: its first frame's end; frame by frame until one is refused, of which one has the calls that read nothing; all frames,
/// in a room and a row that are just enough, and in others.
fn whole(list: &mut List, tally: &mut Tally, run: &[u8], turn: usize) {
    let first = expected(end(tally, run, 0), ANSWER_WORDS);
    list.answer(Asked::new(51, &[], run), 0, &first);
    let mut reader = DssReader::new(run.to_vec());
    let mut frames = 0;
    loop {
        let at = position(&reader, run);
        if frames == turn % 2 {
            look(list, tally, &reader, run, at, ANSWER_WORDS);
        }
        let read = next(tally, &mut reader, run, 0);
        read_in(list, run, at, &read, ANSWER_WORDS, turn + frames);
        frames += 1;
        if matches!(read.came, Came::Refused(_)) {
            break;
        }
    }
    all_at(list, tally, run, 0, ANSWER_WORDS, turn);
}

/// All frames from a place on.
fn all_at(list: &mut List, tally: &mut Tally, run: &[u8], from: usize, words: usize, turn: usize) {
    let rest = &run[from..];
    let mut reader = DssReader::new(rest.to_vec());
    let first = next(tally, &mut reader, rest, from);
    let by_frame = to_end(tally, &mut reader, rest, from, first);
    let (_, frames) = listed(run, from, &by_frame);
    let (bytes, records) = frames.needs();
    for (room, row) in rooms(bytes, RECORD_WORDS, records, turn) {
        let asked = Asked::new(64, &[from as u64], run);
        let answer = frames.answer(from, room, row, words);
        list.answer(asked.room(room).row(row).words(words), 0, &answer);
    }
    let asked = Asked::new(64, &[from as u64], run).words(words);
    structs::rows(list, asked, from, &frames, turn);
}

/// A room and a row that are just enough for so many bytes, and records of so many words, and others in turn: short, longer, none.
pub fn rooms(bytes: usize, width: usize, records: usize, turn: usize) -> [(usize, usize); 2] {
    let row = width * records;
    let other = match turn % 6 {
        0 => (0, 0),
        1 => (bytes.saturating_sub(1), row),
        2 => (bytes, row.saturating_sub(1)),
        3 => (bytes.saturating_sub(1), row.saturating_sub(width)),
        4 => (bytes + 3, row + width),
        _ => (bytes, row + width - 1),
    };
    [(bytes, row), other]
}

/// Places that need not be a frame's, at the run's end, beyond it, and as far beyond it as numbers go.
fn positions(list: &mut List, tally: &mut Tally) {
    for (turn, run) in PAPER.into_iter().enumerate() {
        for at in [1, 6, 7, run.len(), run.len() + 1, 1 << 63, usize::MAX] {
            let Some(rest) = run.get(at..) else {
                outside(list, run, at);
                continue;
            };
            let mut reader = DssReader::new(rest.to_vec());
            look(list, tally, &reader, run, at, ANSWER_WORDS);
            let read = next(tally, &mut reader, rest, at);
            read_in(list, run, at, &read, ANSWER_WORDS, turn);
            all_at(list, tally, run, at, ANSWER_WORDS, turn);
        }
    }
}

/// Beyond the run: 10.
fn outside(list: &mut List, run: &[u8], at: usize) {
    let asked = |call: u64| Asked::new(call, &[at as u64], run);
    list.number(asked(48), 0);
    list.number(asked(49), 0);
    let answer = expected(beyond(at, run.len()), ANSWER_WORDS);
    list.answer(asked(50), 0, &answer);
    list.answer(asked(52).room(3), 0, &answer);
    list.answer(asked(64).room(3).row(11), 0, &answer);
}

fn few_words(list: &mut List, tally: &mut Tally) {
    for words in FEW_WORDS {
        let dead = &runs::dead(0, 1)[1];
        for run in [PAPER[1], PAPER[2], PAPER[4], PAPER[8], dead] {
            let first = expected(end(tally, run, 0), words);
            list.answer(Asked::new(51, &[], run).words(words), 0, &first);
            let mut reader = DssReader::new(run.to_vec());
            look(list, tally, &reader, run, 0, words);
            let read = next(tally, &mut reader, run, 0);
            read_in(list, run, 0, &read, words, words);
            all_at(list, tally, run, 0, words, words);
        }
    }
}
