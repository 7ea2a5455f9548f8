//! An object's data and the walker: no exported function makes these calls.
use crate::answers::{done, refused, Words};
use crate::ddm::objects::Found;
use crate::ddm::params::{self, parameters};
use crate::record::{sum, Asked, List, BYTE};
use crate::rows::OBJECT_WORDS;
use crate::Tally;

/// The data of an object at a place, 176: after the call that fills the work area, what that says with the length of the part in
/// the last word. Where a work area is lent, also 177: in it as it is, the part's length alone. Both return the part's sum. In a
/// work area that is just enough, and in ones that are short by one and longer.
pub fn data(list: &mut List, run: &[u8], at: usize, found: &Found, turn: usize) {
    let asked = |call: u64| Asked::new(call, &[at as u64], run);
    let mut parsed = |room: usize, mut words: Words, laid: &[u8], part: &[u8]| {
        words[7] = part.len() as u64;
        let sum = sum_of(part);
        list.push(asked(176).room(room), sum, &words, (0, laid), &[]);
        if room > 0 {
            let lent = vec![BYTE; laid.len()];
            let part = if laid.is_empty() { part } else { &lent };
            let words = done(&[part.len() as u64]);
            let sum = sum_of(part);
            list.push(asked(177).room(room), sum, &words, (0, &[]), &[]);
        }
    };
    match found {
        Err(refusal) => parsed(turn % 2, *refusal, &[], &[]),
        Ok(item) if !item.in_work => parsed(turn % 2, item.words(0), &[], &item.data),
        Ok(item) => {
            let need = item.data.len();
            let short = refused(9, at as u64, &[need as u64, 0]);
            for room in [need, need + 4] {
                parsed(room, item.words(0), &item.data, &item.data);
            }
            if need > 0 {
                parsed(need - 1, short, &[], &[]);
            }
        }
    }
}

/// A walk over parameters from a place on, 178: for each of them a record with the next place, the last word the sum of what is
/// left there; then the refusal that ends it, with how many they were. It returns the sum of what is left where it ends. In a
/// row that is just enough, or in turn short by one record, longer, or none.
pub fn walk(list: &mut List, tally: &mut Tally, data: &[u8], from: usize, turn: usize) {
    let mut row = Vec::new();
    let mut end = from;
    let count = match data.get(from..) {
        None => 0,
        Some(rest) => {
            let mut items = parameters(tally, rest).items;
            for item in &mut items {
                item.place += from;
                let mut words = item.words(item.next());
                words[7] = sum_of(&data[item.place..]);
                row.extend(words);
                end = item.next();
            }
            items.len()
        }
    };
    let mut words = params::step(tally, data, end);
    words[7] = count as u64;
    let lent = match turn % 4 {
        0 => 0,
        1 => row.len().saturating_sub(OBJECT_WORDS),
        2 => row.len() + 9,
        _ => row.len(),
    };
    row.truncate(lent);
    let asked = Asked::new(178, &[from as u64], data).row(lent);
    let left = data.get(end..).unwrap_or(&[]);
    list.push(asked, sum_of(left), &words, (0, &[]), &row);
}

fn sum_of(bytes: &[u8]) -> u64 {
    sum(bytes.iter().map(|b| *b as u64))
}
