//! Requests: as the Rust builds and writes them, held to what it builds and writes with the new value; and random ones, cut and
//! damaged.
use super::case::{Case, Held};
use super::frames::{cut, head, wide, written, Cut};
use super::model::unreadable;
use super::values::{changed, code_point, data, object, value, values, Values};
use crate::answers::{refused, ANSWER_WORDS};
use crate::ddm::lengths::headed;
use crate::ddm::lists::random_list;
use crate::{By, Chance, Tally};

/// Once in so many times a value is long.
const LONG: usize = 4000;

/// Any bytes, by the model.
pub fn hold(tally: &mut Tally, held: &mut Held, frame: &[u8], code_point: u16, new: &[u8]) {
    let case = Case::request(frame, code_point, new);
    held.hold(tally, By::Change, case, &case.due());
}

/// A frame that the Rust writes around an object that it builds: changed, it is the Rust's frame around the object built with
/// the new value. 1 where the Rust's frame can't be read, 11 where there is no such value, 18 where the new one couldn't be.
pub fn built(
    tally: &mut Tally,
    held: &mut Held,
    chance: &mut Chance,
    values: &Values,
    (code_point, new): (u16, &[u8]),
) {
    let (head, object_code_point) = (head(chance), chance.next() as u16);
    let before = object(object_code_point, values);
    let frame = written(head, &before);
    let due = match changed(values, code_point, new) {
        _ if unreadable(before.len()) => Err(refused(1, 0, &[])),
        None => Err(refused(11, 0, &[])),
        Some(values) => {
            let after = object(object_code_point, &values);
            match unreadable(after.len()) {
                true => Err(refused(18, 0, &[])),
                false => Ok(written(head, &after)),
            }
        }
    };
    let case = Case::request(&frame, code_point, new);
    tally.own("the model's frame", &case.input(0), case.due() == due, true);
    let by = if due.is_ok() { By::Rust } else { By::Change };
    held.hold(tally, by, case, &due);
}

/// The longest payloads of one to four segments, that of an object that is just inline, and that with a value that is.
const EDGES: [usize; 6] = [32_761, 32_767, 32_791, 65_526, 98_291, 131_056];

/// Payloads of each length around each edge: to few bytes and back, to around any edge, and with a few bytes more or less far
/// before the edge.
pub fn edges(tally: &mut Tally, held: &mut Held, chance: &mut Chance) {
    for edge in EDGES {
        for less in 18..=38 {
            let long = chance.bytes(edge - less);
            let other = EDGES[chance.below(6)] - 18 - chance.below(21);
            let other = chance.bytes(other);
            let few = chance.bytes(less - 18);
            for (old, code_point, new) in [
                (&long, 0x2402, &few),
                (&few, 0x2402, &long),
                (&long, 0x2402, &other),
                (&long, 0x2401, &few),
            ] {
                let values = vec![
                    (0x2401, vec![0xC1; 5]),
                    (0x2402, old.clone()),
                    (0x2403, vec![0xC2; 3]),
                ];
                built(tally, held, chance, &values, (code_point, new));
            }
        }
    }
}

/// A random object of any header, at times with bytes behind it; and where its parameters start.
fn payload(chance: &mut Chance) -> (Vec<u8>, Vec<usize>) {
    let (data, mut starts) = random_list(chance);
    let mut payload = match chance.below(32) {
        0 => headed(0x8004, 0x2001, &data),
        1..=6 => wide(1 + chance.below(12), 0x2001, &data),
        _ => headed(4 + data.len(), 0x2001, &data),
    };
    let header = payload.len() - data.len();
    starts.iter_mut().for_each(|start| *start += header);
    if chance.below(16) == 0 {
        payload.extend([0, 4, 0x24, 0x01, 0][..1 + chance.below(5)].iter());
    }
    (payload, starts)
}

/// Spoils a frame, two times of three: a byte near a head, an object's or a parameter's start, the end, or bytes behind it; and
/// of the others, one of two times a continuation's length, where there is one, which becomes 0 or 1.
fn spoil(chance: &mut Chance, cut: &mut Cut, starts: &[usize]) {
    let mut marks = vec![0, 6];
    marks.extend(&cut.continuations);
    marks.extend(starts.iter().map(|start| cut.place(*start)));
    let place = marks[chance.below(marks.len())] + chance.below(9);
    let place = place.min(cut.bytes.len() - 1);
    match chance.below(6) {
        0 | 1 => {
            cut.bytes[place] = match chance.below(3) {
                0 => cut.bytes[place].wrapping_add([1, 2, 255, 254][chance.below(4)]),
                1 => [0, 1, 2, 4, 6, 0x7F, 0x80, 0xFF][chance.below(8)],
                _ => chance.byte(),
            }
        }
        2 => cut.bytes.truncate(place),
        3 => {
            let behind = 1 + chance.below(9);
            let bytes = chance.bytes(behind);
            cut.bytes.extend(bytes);
        }
        4 if !cut.continuations.is_empty() => {
            let place = cut.continuations[chance.below(cut.continuations.len())];
            cut.bytes[place] = 0;
            cut.bytes[place + 1] = chance.below(2) as u8;
        }
        _ => (),
    }
}

/// A random request, mostly spoilt; and one that the Rust builds and writes.
pub fn random(tally: &mut Tally, held: &mut Held, chance: &mut Chance) {
    held.lent_words = 6 + chance.below(5);
    let (cp, new) = (code_point(chance), value(chance, LONG));
    let (payload, starts) = payload(chance);
    let head = head(chance);
    let mut frame = cut(chance, head, &payload);
    spoil(chance, &mut frame, &starts);
    hold(tally, held, &frame.bytes, cp, &new);
    let values = values(chance, LONG);
    built(tally, held, chance, &values, (cp, &new));
    held.lent_words = ANSWER_WORDS;
}

/// The same of several segments, cut as the reader takes them.
pub fn random_long(tally: &mut Tally, held: &mut Held, chance: &mut Chance) {
    let mut values = values(chance, LONG);
    for _ in 0..1 + chance.below(3) {
        let len = chance.below(47_000);
        let long = (code_point(chance), chance.bytes(len));
        values.insert(chance.below(values.len() + 1), long);
    }
    let len = [chance.below(20), chance.below(70_000)][chance.below(2)];
    let (cp, new) = (code_point(chance), chance.bytes(len));
    built(tally, held, chance, &values, (cp, &new));

    let payload = object(0x2001, &values);
    let mut starts = vec![payload.len() - data(&values).len()];
    for (_, data) in &values {
        let header = if data.len() <= 32_763 { 4 } else { 8 };
        starts.push(starts[starts.len() - 1] + header + data.len());
    }
    let head = head(chance);
    let mut frame = cut(chance, head, &payload);
    hold(tally, held, &frame.bytes, cp, &new);
    spoil(chance, &mut frame, &starts);
    hold(tally, held, &frame.bytes, cp, &new);
}
