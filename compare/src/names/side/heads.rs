// Constants, types, flags, heads.
use crate::names::seen::{Derived, Head, Seen};
use proto::dss::*;
use values::{derived, head, why};

pub fn constants() -> (u8, usize, usize) {
    (DSS_MAGIC, DSS_HEADER_LEN, DSS_MAX_SEGMENT_LEN)
}

const TYPES: [DssType; 4] = [
    DssType::Request,
    DssType::Reply,
    DssType::Object,
    DssType::Communication,
];

/// Each type's byte and how it is shown; and which of the others it equals.
pub fn types() -> Vec<(u8, Derived, [bool; 4])> {
    let each = |dss_type: DssType| {
        let shown = derived(&dss_type, |a, b| a == b);
        let equal = TYPES.map(|other| other == dss_type);
        (dss_type.to_byte(), shown, equal)
    };
    TYPES.into_iter().map(each).collect()
}

/// The type of a byte, by its own byte.
pub fn type_of(b: u8) -> Seen<u8> {
    DssType::from_byte(b).map(DssType::to_byte).map_err(why)
}

fn flags([chained, continue_on_error, same_correlation]: [bool; 3]) -> DssFlags {
    DssFlags {
        chained,
        continue_on_error,
        same_correlation,
    }
}

fn bits(flags: DssFlags) -> [bool; 3] {
    [
        flags.chained,
        flags.continue_on_error,
        flags.same_correlation,
    ]
}

pub fn none() -> [bool; 3] {
    bits(DssFlags::none())
}

/// The byte of flags, how they are shown, and whether they are none.
pub fn byte_of(set: [bool; 3]) -> (u8, Derived, bool) {
    let flags = flags(set);
    let shown = derived(&flags, |a, b| a == b);
    (flags.to_byte(), shown, flags == DssFlags::none())
}

pub fn flags_of(b: u8) -> [bool; 3] {
    bits(DssFlags::from_byte(b))
}

pub fn parse(bytes: &[u8]) -> Seen<Head> {
    DssHeader::parse(bytes).map(|h| head(&h)).map_err(why)
}

fn header((length, dss_type, set, correlation_id): Head) -> DssHeader {
    DssHeader {
        length,
        dss_type: TYPES[dss_type as usize - 1],
        flags: flags(set),
        correlation_id,
    }
}

pub fn serialize(head: Head) -> [u8; 6] {
    header(head).serialize()
}

/// How a head is shown, and whether it equals another one.
pub fn shown(one: Head, other: Head) -> (Derived, bool) {
    let (one, other) = (header(one), header(other));
    (derived(&one, |a, b| a == b), one == other)
}
