//! One call that builds, in one room: the port's, and the Rust's of the same name.
use super::case::Held;
use super::rust::text::{self, DdmBuilder};
use crate::answers::{done, refused, Answer};
use crate::port;
use crate::port::Loan;
use crate::Tally;
use Call::*;

/// A call that lays bytes down, with its numbers.
#[derive(Clone, Copy, Debug)]
pub enum Call {
    AddCodePoint { cp: u16 },
    AddRaw,
    AddU16 { cp: u16, val: u16 },
    AddU32 { cp: u16, val: u32 },
    BuildParam { cp: u16 },
    BuildParamU16 { cp: u16, value: u16 },
    BuildObject { cp: u16 },
}

/// Every call, each with some numbers.
pub fn every_call(cp: u16, val: u32) -> [Call; 7] {
    let value = val as u16;
    [
        AddCodePoint { cp },
        AddRaw,
        AddU16 { cp, val: value },
        AddU32 { cp, val },
        BuildParam { cp },
        BuildParamU16 { cp, value },
        BuildObject { cp },
    ]
}

impl Call {
    /// Adds to a builder, from its fill mark on; the others start at the room's first byte.
    pub fn adds(self) -> bool {
        matches!(
            self,
            AddCodePoint { .. } | AddRaw | AddU16 { .. } | AddU32 { .. }
        )
    }

    /// The Rust's call on a builder.
    pub fn rust(self, builder: &mut DdmBuilder, data: &[u8]) {
        match self {
            AddCodePoint { cp } => builder.add_code_point(cp, data),
            AddRaw => builder.add_raw(data),
            AddU16 { cp, val } => builder.add_u16(cp, val),
            AddU32 { cp, val } => builder.add_u32(cp, val),
            _ => panic!("this call has no builder"),
        };
    }

    /// The bytes that the Rust lays down.
    pub fn bytes(self, data: &[u8]) -> Vec<u8> {
        match self {
            BuildParam { cp } => text::build_param(cp, data),
            BuildParamU16 { cp, value } => text::build_param_u16(cp, value),
            BuildObject { cp } => text::build_ddm_object(cp, data),
            _ => {
                let mut builder = DdmBuilder::new(0x2412);
                self.rust(&mut builder, data);
                text::data_of(&builder).to_vec()
            }
        }
    }

    /// The port's call.
    pub fn port(self, fill: usize, payload: &[u8], room: &mut [u8], words: &mut [u64]) -> u8 {
        match self {
            AddU16 { cp, val } => return port::builder_add_u16(fill, cp, val, room, words),
            AddU32 { cp, val } => return port::builder_add_u32(fill, cp, val, room, words),
            BuildParamU16 { cp, value } => return port::build_param_u16(cp, value, room, words),
            _ => (),
        }
        let loan = Loan {
            payload,
            room,
            words,
        };
        match self {
            AddCodePoint { cp } => port::builder_add_code_point(fill, cp, loan),
            AddRaw => port::builder_add_raw(fill, loan),
            BuildParam { cp } => port::build_param(cp, loan),
            _ => {
                let BuildObject { cp } = self else {
                    panic!("no such call")
                };
                port::build_ddm_object(cp, loan)
            }
        }
    }
}

/// What laying bytes down from a fill mark of a room comes to: 10, then 9; done with a number.
pub fn laid(held: &Held, mark: usize, room: usize, bytes: &[u8], result: usize) -> Answer {
    let at = mark as u64;
    if room < mark {
        return held.answer(refused(10, at, &[at, room as u64]));
    }
    if room - mark < bytes.len() {
        return held.answer(refused(9, at, &[bytes.len() as u64, 0]));
    }
    held.answer(done(&[result as u64])).laying(bytes)
}

/// What a case is, for the line of a difference.
pub fn input(call: Call, numbers: &[usize]) -> Vec<u8> {
    let numbers: Vec<u8> = numbers.iter().flat_map(|n| n.to_be_bytes()).collect();
    [format!("{call:?}").as_bytes(), &numbers].concat()
}

/// One call, with a fill mark where it has one, in a room of so many bytes.
pub fn hold(tally: &mut Tally, held: &mut Held, call: Call, fill: usize, data: &[u8], room: usize) {
    let bytes = call.bytes(data);
    let mark = if call.adds() { fill } else { 0 };
    let rust = laid(held, mark, room, &bytes, mark.wrapping_add(bytes.len()));
    let at = (mark, rust.bytes_laid());
    let port = held.take(data, room, at, |data, room, words| {
        call.port(fill, data, room, words)
    });
    tally.answer(
        "building",
        &input(call, &[fill, data.len(), room]),
        port,
        rust,
    );
}

/// The same in a room that is short by one, in one that is just enough, and in a longer one.
pub fn around(tally: &mut Tally, held: &mut Held, call: Call, fill: usize, data: &[u8]) {
    let mark = if call.adds() { fill } else { 0 };
    let need = mark + call.bytes(data).len();
    for room in [need.saturating_sub(1), need, need + 1 + data.len() % 40] {
        hold(tally, held, call, fill, data, room);
    }
}

/// A builder's object: its data are the first bytes of `content`, up to the fill mark.
pub fn build(
    tally: &mut Tally,
    held: &mut Held,
    cp: u16,
    fill: usize,
    content: &[u8],
    room: usize,
) {
    let at = fill as u64;
    let rust = match content.get(..fill) {
        None => held.answer(refused(10, at, &[at, content.len() as u64])),
        Some(data) => {
            let object = DdmBuilder::new(cp).add_raw(data).build();
            match room < object.len() {
                true => held.answer(refused(9, at, &[object.len() as u64, 0])),
                false => held.answer(done(&[object.len() as u64])).laying(&object),
            }
        }
    };
    let laid = (0, rust.bytes_laid());
    let port = held.take(content, room, laid, |payload, room, words| {
        let loan = Loan {
            payload,
            room,
            words,
        };
        port::builder_build(cp, fill, loan)
    });
    let numbers = [cp as usize, fill, content.len(), room];
    tally.answer(
        "build",
        numbers.map(usize::to_be_bytes).as_flattened(),
        port,
        rust,
    );
}
