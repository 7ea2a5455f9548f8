//! The salvage reading's answers for the list, by the model: the Rust has none.
use super::runs::GOOD;
use super::{listed, model};
use crate::answers::ANSWER_WORDS;
use crate::reader::record::{rooms, runs};
use crate::reader::PAPER;
use crate::record::{structs, Asked, List, FEW_WORDS};
use crate::rows::RECORD_WORDS;
use crate::Chance;

/// The reader's runs, and document 01's cases of frames each with a good frame behind it, with bytes changed.
pub fn record(list: &mut List, chance: &mut Chance) {
    let mut turn = 0;
    for run in runs::all(chance) {
        turn += 1;
        salvage(list, &run, ANSWER_WORDS, turn);
    }
    for first in PAPER {
        let run = [first, GOOD].concat();
        for place in (0..run.len()).step_by(2) {
            turn += 1;
            let mut run = run.clone();
            run[place] = [0, 1, 5, 7, 0x13, 0x53, 0xD0, 0xFF][turn % 8];
            salvage(list, &run, ANSWER_WORDS, turn);
        }
    }
    for count in structs::AROUND {
        salvage(list, &GOOD.repeat(count), ANSWER_WORDS, 4);
    }
    for words in FEW_WORDS {
        for first in PAPER {
            salvage(list, &[first, GOOD].concat(), words, words);
        }
    }
}

/// In a room and a row that are just enough, and in others.
fn salvage(list: &mut List, run: &[u8], words: usize, turn: usize) {
    let entries = listed(&model::salvage(run));
    let (bytes, records) = entries.needs();
    for (room, row) in rooms(bytes, RECORD_WORDS, records, turn) {
        let asked = Asked::new(65, &[], run).room(room).row(row).words(words);
        list.answer(asked, 0, &entries.answer(0, room, row, words));
    }
    let asked = Asked::new(65, &[], run).words(words);
    structs::rows(list, asked, 0, &entries, turn);
}
