//! Module 4's answers for the list.
mod building;
mod markers;
mod numbers;
mod parts;

use super::lengths::headed;
use super::lists::{good, unfit};
use super::objects::{object, objects, Found, Item};
use super::params::{self, parameters};
use super::rust::{marshaled, text};
use crate::answers::{done, expected, refused, Words, ANSWER_WORDS};
use crate::reader::record::rooms;
use crate::record::{counted, structs, Asked, List, FEW_WORDS};
use crate::rows::{Listed, OBJECT_WORDS};
use crate::{Chance, Tally};

pub fn record(list: &mut List, tally: &mut Tally, chance: &mut Chance) {
    let mut turn = 0;
    for run in runs(chance) {
        turn += 1;
        whole(list, tally, &run, turn);
    }
    for count in structs::AROUND {
        let run = headed(5, 0x2401, &[0xC1]).repeat(count);
        whole(list, tally, &run, 4);
    }
    places(list, tally);
    few_words(list, tally);
    numbers::numbers(list);
    numbers::total_lengths(list);
    markers::markers(list, tally);
    building::building(list);
}

/// Document 01's P13 to P16.
const PAPER: [&[u8]; 4] = [
    b"\x00\x04\x20\x0D",
    b"\x80\x05\x24\x12\x01\xC1",
    b"\x80\x03\x24\x12",
    b"\x00\x03\x24\x12",
];

/// Those; single objects and pairs of a few, good and unfit, some cut; data at both sides of the inline edge.
fn runs(chance: &mut Chance) -> Vec<Vec<u8>> {
    let mut all: Vec<Vec<u8>> = PAPER.map(|run| run.to_vec()).to_vec();
    let pieces = [good(), unfit()].concat();
    for (i, first) in pieces.iter().enumerate() {
        for cut in (i % 3..first.len()).step_by(3) {
            all.push(first[..cut].to_vec());
        }
        all.push(first.clone());
        for second in pieces.iter().skip(i % 3).step_by(3) {
            let run = [&first[..], second].concat();
            let cut = run.len() - chance.below(4);
            all.push(run[..cut].to_vec());
        }
    }
    for len in [32_762, 32_763, 32_764, 65_536] {
        let built = text::build_ddm_object(0x241B, &counted(len, 3));
        all.push(built[..built.len() - 1].to_vec());
        all.push([&built[..], &headed(5, 0x2401, &[0xC1])].concat());
        all.push(built);
    }
    all
}

/// A run through every call that reads a length.
fn whole(list: &mut List, tally: &mut Tally, run: &[u8], turn: usize) {
    let length = marshaled(tally, run);
    list.answer(Asked::new(80, &[], run), 0, &expected(length, ANSWER_WORDS));
    let first = object(tally, run, 0);
    found(list, Asked::new(82, &[0], run), 0, &first, turn);
    parts::data(list, run, 0, &first, turn);
    let all = objects(tally, run);
    lists(list, Asked::new(96, &[], run), all, turn);
    let params = parameters(tally, run);
    for code_point in [0x2401, [0x2402, 0x241B, 0x241C][turn % 3]] {
        let first = params
            .items
            .iter()
            .find(|item| item.code_point == code_point);
        let rust = params.sound.find_param(code_point).map(|param| param.data);
        assert!(
            rust.as_ref() == first.map(|item| &item.data),
            "another parameter"
        );
        let first = first.cloned().ok_or(refused(11, 0, &[]));
        found(
            list,
            Asked::new(83, &[code_point as u64], run),
            0,
            &first,
            turn,
        );
    }
    step(list, tally, run, 0, ANSWER_WORDS);
    parts::walk(list, tally, run, 0, turn);
    lists(list, Asked::new(97, &[], run), Ok(params.items), turn + 1);
}

/// An object or a parameter: in a work area that is just enough, and in one that is short by one or longer. 9 has this place.
fn found(list: &mut List, asked: Asked, place: usize, found: &Found, turn: usize) {
    let need = found.as_ref().map_or(0, |item| item.work().len());
    for room in [need, [need.saturating_sub(1), need + 4][turn % 2]] {
        let answer = match found {
            Err(refusal) => expected(*refusal, asked.lent_words()),
            Ok(_) if room < need => expected(
                refused(9, place as u64, &[need as u64, 0]),
                asked.lent_words(),
            ),
            Ok(item) => expected(item.words(0), asked.lent_words()).laying(item.work()),
        };
        list.answer(asked.room(room), 0, &answer);
    }
}

/// A list of them: in a work area and a row that are just enough, and in others.
fn lists(list: &mut List, asked: Asked, items: Result<Vec<Item>, Words>, turn: usize) {
    let all = match items {
        Err(refusal) => Listed::Refused(refusal),
        Ok(items) => {
            let payloads: Vec<u8> = items.iter().flat_map(|i| i.work()).copied().collect();
            let words = done(&[items.len() as u64, payloads.len() as u64]);
            let records = items.iter().map(|i| i.words(0)).collect();
            Listed::All {
                words,
                records,
                payloads,
            }
        }
    };
    let (bytes, records) = all.needs();
    for (room, row) in rooms(bytes, OBJECT_WORDS, records, turn) {
        let answer = all.answer(0, room, row, asked.lent_words());
        list.answer(asked.room(room).row(row), 0, &answer);
    }
    structs::rows(list, asked, 0, &all, turn);
}

/// The parameter at a place.
fn step(list: &mut List, tally: &mut Tally, data: &[u8], at: usize, words: usize) {
    let answer = params::step(tally, data, at);
    let asked = Asked::new(84, &[at as u64], data).words(words);
    list.answer(asked, 0, &expected(answer, words));
}

/// Places of runs, at their end, beyond it, and as far beyond it as numbers go.
fn places(list: &mut List, tally: &mut Tally) {
    for (turn, first) in [good(), unfit()].concat().into_iter().enumerate() {
        let run = [&first[..], &headed(5, 0x2401, &[0xC1])].concat();
        let len = run.len();
        for at in [1, 4, first.len(), len, len + 1, 1 << 63, usize::MAX] {
            let there = object(tally, &run, at);
            found(list, Asked::new(82, &[at as u64], &run), at, &there, turn);
            step(list, tally, &run, at, ANSWER_WORDS);
            parts::data(list, &run, at, &there, turn);
            if turn % 3 == at % 3 {
                parts::walk(list, tally, &run, at, turn);
            }
        }
    }
}

fn few_words(list: &mut List, tally: &mut Tally) {
    for words in FEW_WORDS {
        for run in PAPER {
            let length = expected(marshaled(tally, run), words);
            list.answer(Asked::new(80, &[], run).words(words), 0, &length);
            let first = object(tally, run, 0);
            found(list, Asked::new(82, &[0], run).words(words), 0, &first, 1);
            step(list, tally, run, 0, words);
            let all = objects(tally, run);
            lists(list, Asked::new(96, &[], run).words(words), all, words);
        }
    }
}
