//! Data: as the Rust builds them, held to what it builds with the new value; and lists of every kind, good, unfit, cut and
//! damaged.
use super::case::{Case, Held};
use super::values::{changed, code_point, data, value, values, Values};
use super::{model, rust};
use crate::answers::{refused, ANSWER_WORDS};
use crate::ddm::lists::{good, random_list, unfit};
use crate::{By, Chance, Tally};

/// Once in so many times a value is long.
const LONG: usize = 4000;

/// Lengths of values: both sides of the longest inline one, and others.
const LENGTHS: [usize; 9] = [0, 1, 4, 32_762, 32_763, 32_764, 32_765, 65_535, 65_536];

/// Any data, by the model; and the model by the Rust's list.
fn hold(tally: &mut Tally, held: &mut Held, data: &[u8], code_point: u16, new: &[u8]) {
    let case = Case::param(data, code_point, new);
    let listed = rust::emptied(tally, data, code_point);
    let model = model::change_param_len(data, code_point, 0);
    tally.own("the Rust's list", &case.input(0), model, listed);
    held.hold(tally, By::Change, case, &case.due());
    held.hold_len(tally, data, code_point, new.len());
}

/// Data that the Rust builds: changed, they are what it builds with the new value. 11 where it has no such one.
fn built(tally: &mut Tally, held: &mut Held, values: &Values, code_point: u16, new: &[u8]) {
    let before = data(values);
    let case = Case::param(&before, code_point, new);
    let due = match changed(values, code_point, new) {
        Some(values) => Ok(data(&values)),
        None => Err(refused(11, 0, &[])),
    };
    let by = if due.is_ok() { By::Rust } else { By::Change };
    tally.own("the model's data", &case.input(0), case.due() == due, true);
    held.hold(tally, by, case, &due);
    held.hold_len(tally, &before, code_point, new.len());
}

/// Every list of up to two good and unfit ones, cut at every byte: each code point that is there, and one that isn't.
pub fn short(tally: &mut Tally, held: &mut Held) {
    let mut pieces = vec![Vec::new()];
    pieces.extend(good());
    pieces.extend(unfit());
    for first in &pieces {
        for second in &pieces {
            let list = [&first[..], second].concat();
            for cut in 0..=list.len() {
                for code_point in 0x2401..=0x2406 {
                    let new = [0xD1, 0xD2, 0xD3][..cut % 4].to_vec();
                    hold(tally, held, &list[..cut], code_point, &new);
                }
            }
        }
    }
}

/// Values of each length changed to each other, alone and between others, of which one has the same code point.
pub fn lengths(tally: &mut Tally, held: &mut Held, chance: &mut Chance) {
    let beside = |code_point: u16| (code_point, vec![0xC1, 0xC2]);
    for old in LENGTHS {
        for new in LENGTHS {
            let (old, new) = (chance.bytes(old), chance.bytes(new));
            let alone = vec![(0x2402, old)];
            let among = [&[beside(0x2401)], &alone[..], &[beside(0x2402)]].concat();
            for values in [alone, among] {
                let before = data(&values);
                let case = Case::param(&before, 0x2402, &new);
                let due = changed(&values, 0x2402, &new).expect("such a value");
                held.hold_around(tally, By::Rust, case, &Ok(data(&due)));
            }
        }
    }
}

/// How many bytes, of so many new ones: around each edge, and up to 2^64 - 1.
pub fn needs(tally: &mut Tally, held: &mut Held) {
    let edges = [
        3,
        32_763,
        2_147_483_643,
        140_737_488_355_323,
        usize::MAX - 30,
        usize::MAX - 2,
    ];
    let lists = [
        &b""[..],
        b"\x00\x05\x24\x01\xC1",
        b"\x00\x05\x24\x02\xC1\x00\x06\x24\x01\xC2\xC3\x00\x04\x24\x03",
        b"\x00\x05\x24\x01\xC1\x00\x03",
    ];
    for new_len in edges.into_iter().flat_map(|edge| edge - 3..=edge + 2) {
        for list in lists {
            held.hold_len(tally, list, 0x2401, new_len);
        }
    }
    for back in 0..40 {
        held.hold_len(tally, lists[2], 0x2401, usize::MAX - back);
    }
}

/// Fewer words than an answer has stay as they are, and of more only so many are laid down: done, and each refusal.
pub fn few_words(tally: &mut Tally, held: &mut Held) {
    for words in 0..=12 {
        held.lent_words = words;
        for list in [good(), unfit()].concat() {
            for code_point in [0x2401, 0x2402, 0xFFFF] {
                let case = Case::param(&list, code_point, &[0xD1, 0xD2]);
                held.hold_around(tally, By::Change, case, &case.due());
                held.hold_len(tally, &list, code_point, 7);
            }
        }
    }
    held.lent_words = ANSWER_WORDS;
}

/// A random list, at times damaged and at times cut; and one that the Rust builds.
pub fn random(tally: &mut Tally, held: &mut Held, chance: &mut Chance) {
    held.lent_words = 6 + chance.below(5);
    let (list, _) = random_list(chance);
    let (cp, new) = (code_point(chance), value(chance, LONG));
    hold(tally, held, &list, cp, &new);
    let values = values(chance, LONG);
    built(tally, held, &values, cp, &new);
    held.lent_words = ANSWER_WORDS;
}
