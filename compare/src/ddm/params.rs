//! The Rust's parameters, and where it goes astray in their list.
use super::objects::Item;
use super::rust::{text, too_large};
use crate::answers::{refused, Words};
use crate::stops::unless_stopped;
use crate::{shown, Tally};
use db2_proto::ddm::DdmObject;

/// An object with these data: what its parameters are doesn't depend on its code point.
fn with_data(data: &[u8]) -> DdmObject {
    DdmObject {
        code_point: 0x2412,
        data: data.to_vec(),
    }
}

/// Where parameters stand and how many bytes each takes, by the Rust's own lengths and checked sums; and where the Rust goes
/// astray: at a length that loses bits, and at an end above 2^64 - 1.
fn walk(data: &[u8]) -> (Vec<(usize, usize)>, Option<usize>) {
    let (mut parts, mut at) = (Vec::new(), 0);
    loop {
        let rest = &data[at..];
        if too_large(rest).is_some() {
            return (parts, Some(at));
        }
        match text::marshaled_length(rest) {
            Ok((total, header)) if header <= total && total <= rest.len() => {
                parts.push((at, total));
                at += total;
            }
            Ok((total, _)) if at.checked_add(total).is_none() => return (parts, Some(at)),
            _ => return (parts, None),
        }
    }
}

/// How many bytes of data there are before the Rust goes astray.
pub fn sound_len(data: &[u8]) -> usize {
    walk(data).1.unwrap_or(data.len())
}

/// What the Rust comes to that goes astray at a place: it ends the list there, or goes on and ends it later, and stops where an
/// end wraps.
fn foretold(data: &[u8], mut at: usize) -> &'static str {
    let mut list = "the same list";
    loop {
        match text::marshaled_length(&data[at..]) {
            Ok((total, header)) if header <= total => match at.checked_add(total) {
                None => return "stopped",
                Some(end) if data.len() < end => return list,
                Some(end) => at = end,
            },
            _ => return list,
        }
        list = "a longer list";
    }
}

/// What a step at a place comes to, which need not be a parameter's: the Rust has the data from there on; beyond them, document
/// 01's 10.
pub fn step(tally: &mut Tally, data: &[u8], at: usize) -> Words {
    let Some(rest) = data.get(at..) else {
        return refused(10, at as u64, &[at as u64, data.len() as u64]);
    };
    match parameters(tally, rest).items.first_mut() {
        None => refused(11, at as u64, &[]),
        Some(first) => {
            first.place = at;
            first.words(first.next())
        }
    }
}

/// The parameters of data.
pub struct Params {
    pub items: Vec<Item>,
    /// The data up to where the Rust goes astray.
    pub sound: DdmObject,
}

pub fn parameters(tally: &mut Tally, data: &[u8]) -> Params {
    let (parts, astray) = walk(data);
    let sound = with_data(&data[..sound_len(data)]);
    let list = sound.parameters();
    if let Some(at) = astray {
        let seen = match unless_stopped(|| with_data(data).parameters()) {
            None => "stopped",
            Some(longer) if list.len() < longer.len() && longer.starts_with(&list) => {
                "a longer list"
            }
            Some(same) if same == list => "the same list",
            Some(_) => "another list",
        };
        tally.own("parameters, astray", shown(data), foretold(data, at), seen);
        // It lists all before it finds one.
        let find = unless_stopped(|| with_data(data).find_param(0x2401));
        let stopped = (seen == "stopped", find.is_none());
        tally.own("find_param, astray", shown(data), stopped.0, stopped.1);
    }
    tally.own("parameters, how many", shown(data), parts.len(), list.len());
    let items = parts.into_iter().zip(list);
    let items = items.map(|((at, total), param)| Item::new(tally, data, at, param, total));
    let items = items.collect();
    Params { items, sound }
}
