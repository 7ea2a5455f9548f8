//! Objects and parameters: lists of them, good, unfit, cut and damaged; data with continuation markers; numbers.
use super::seen::{Case, Why};
use super::{port, rust, Names};
use crate::ddm::lengths::headed;
use crate::ddm::lists::{good, random_list, unfit};
use crate::ddm::markers::{marked, KINDS, PLACES};
use crate::ddm::params::sound_len;
use crate::ddm::rust::too_large;
use crate::{shown, Chance};

const PARSE: &[&str] = &[
    "DdmObject::parse",
    "DdmObject::code_point",
    "DdmObject::data",
];
const ALL: &[&str] = &["parse_ddm_objects"];
const PARAMETERS: &[&str] = &[
    "DdmObject::parameters",
    "DdmParam::code_point",
    "DdmParam::data",
];
const FIND: &[&str] = &["DdmObject::find_param"];
const TOTAL: &[&str] = &["DdmObject::total_length"];
const NUMBERS: &[&str] = &["DdmParam::as_u16", "DdmParam::as_u32", "DdmParam::as_i32"];

pub fn compare(names: &mut Names, chance: &mut Chance, cases: u64) {
    let pieces = [good(), unfit()].concat();
    for first in &pieces {
        for second in &pieces {
            let run = [&first[..], second].concat();
            for cut in 0..=run.len() {
                hold(names, &run[..cut]);
            }
            for third in &pieces {
                hold(names, &[&run[..], third].concat());
            }
        }
    }
    for raw in 0..=0xFFFF {
        let behind = chance.bytes(raw % 21);
        hold(names, &headed(raw, raw as u16 ^ 0x2412, &behind));
        numbers(names, &headed(raw, 0x8001, &[])[..raw % 5]);
    }
    markers(names, chance);
    for _ in 0..cases {
        let (run, _) = random_list(chance);
        hold(names, &run);
        let len = chance.below(7);
        let data = chance.bytes(len);
        numbers(names, &data);
        let other = [&data[..], &run].concat();
        let given = (
            port::objects::shown(&data, &other),
            rust::objects::shown(&data, &other),
        );
        names.same(&["DdmObject", "DdmParam"], &data, given.0, given.1);
    }
}

/// Data around each place of a marker, as an object of raw length 8004 behind another one; what is no such object.
fn markers(names: &mut Names, chance: &mut Chance) {
    let bytes = chance.bytes(4 * 32_768);
    for place in PLACES {
        for len in place - 1..=place + 4 {
            for mask in 0..4 {
                let data = marked(&bytes, len, mask, KINDS[len % 4]);
                let before = headed(6, 0x2401, &[0xC1, 0xC2]);
                hold(
                    names,
                    &[&before[..], &headed(0x8004, 0x241B, &data)].concat(),
                );
                hold(names, &headed(len + 4, 0x241B, &data));
            }
        }
    }
}

fn numbers(names: &mut Names, data: &[u8]) {
    let given = (port::objects::numbers(data), rust::objects::numbers(data));
    names.same(NUMBERS, data, given.0, given.1);
}

/// The error of a length that is too large in document 01's words.
fn too_large_error(header: usize) -> Why {
    Why {
        case: Case::Unshared,
        text: format!("extended DDM length behind a header of {header} bytes is too large"),
        debug: format!("LengthTooLarge({header})"),
    }
}

/// The header of the first object, one behind the other, whose length the Rust loses bits of.
pub fn loses_bits(run: &[u8]) -> Option<usize> {
    let mut rest = run;
    loop {
        if let Some(large) = too_large(rest) {
            return Some(large.header);
        }
        let (_, consumed) = rust::objects::parse(rest).ok()?;
        rest = &rest[consumed..];
    }
}

/// A run as an object, as objects, and as the data of one.
pub fn hold(names: &mut Names, run: &[u8]) {
    let input = shown(run);
    let port = port::objects::parse(run);
    match too_large(run) {
        None => names.result(PARSE, input, port, rust::objects::parse(run)),
        Some(large) => names.document(PARSE[0], input, port, Err(too_large_error(large.header))),
    }
    let port = port::objects::all(run);
    match loses_bits(run) {
        None => names.result(ALL, input, port, rust::objects::all(run)),
        Some(header) => names.document(ALL[0], input, port, Err(too_large_error(header))),
    }
    let total = rust::objects::total_length(run);
    names.same(TOTAL, input, port::objects::total_length(run), total);
    parameters(names, run);
}

/// All parameters, and the first of each code point of a few. The Rust gets the data up to where it goes astray.
fn parameters(names: &mut Names, data: &[u8]) {
    let input = shown(data);
    let sound = &data[..sound_len(data)];
    let (port, rust) = (
        port::objects::parameters(data),
        rust::objects::parameters(sound),
    );
    let code_points = [0x2401, 0x2402, 0x2403, 0x241B, 0xFFFF];
    let found = |of: fn(&[u8], u16) -> _, data| code_points.map(|cp| of(data, cp));
    let found = (
        found(port::objects::find, data),
        found(rust::objects::find, sound),
    );
    if sound.len() == data.len() {
        names.same(PARAMETERS, input, port, rust);
        names.same(FIND, input, found.0, found.1);
    } else {
        names.document(PARAMETERS[0], input, port, rust);
        names.document(FIND[0], input, found.0, found.1);
    }
}
