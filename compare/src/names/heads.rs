//! Constants, types, flags, heads.
use super::seen::Head;
use super::{port, rust, Names};
use crate::{five, Chance};

const TYPES: &[&str] = &[
    "DssType::to_byte",
    "DssType",
    "DssType::Request",
    "DssType::Reply",
    "DssType::Object",
    "DssType::Communication",
];
const FLAGS: &[&str] = &[
    "DssFlags::to_byte",
    "DssFlags",
    "DssFlags::chained",
    "DssFlags::continue_on_error",
    "DssFlags::same_correlation",
];
const PARSE: &[&str] = &["DssHeader::parse"];
const SERIALIZE: &[&str] = &[
    "DssHeader::serialize",
    "DssHeader",
    "DssHeader::length",
    "DssHeader::dss_type",
    "DssHeader::flags",
    "DssHeader::correlation_id",
];

pub fn compare(names: &mut Names, chance: &mut Chance, cases: u64) {
    let (port, rust) = (port::heads::constants(), rust::heads::constants());
    names.same(&["DSS_MAGIC"], &[], port.0, rust.0);
    names.same(&["DSS_HEADER_LEN"], &[], port.1, rust.1);
    names.same(&["DSS_MAX_SEGMENT_LEN"], &[], port.2, rust.2);
    names.same(TYPES, &[], port::heads::types(), rust::heads::types());
    let none = (port::heads::none(), rust::heads::none());
    names.same(&["DssFlags::none"], &[], none.0, none.1);
    for b in 0..=255 {
        let given = (port::heads::type_of(b), rust::heads::type_of(b));
        let no_reply = || Ok(five::NO_REPLY);
        names.or_five(&["DssType::from_byte"], &[b], given.0, given.1, no_reply);
        let given = (port::heads::flags_of(b), rust::heads::flags_of(b));
        names.same(&["DssFlags::from_byte"], &[b], given.0, given.1);
        let set = [b & 1 != 0, b & 2 != 0, b & 4 != 0];
        let given = (port::heads::byte_of(set), rust::heads::byte_of(set));
        names.same(FLAGS, &[b & 7], given.0, given.1);
    }
    numbers(names);
    for _ in 0..cases {
        let len = 4 + chance.below(9);
        let mut bytes = chance.bytes(len);
        if chance.below(4) != 0 {
            bytes[2] = 0xD0;
        }
        parse(names, &bytes);
        written(names, random_head(chance), random_head(chance));
    }
}

/// Every raw length, every correlation, every magic with every format byte, any number of bytes; every length and every
/// correlation written.
fn numbers(names: &mut Names) {
    for number in 0..=u16::MAX {
        let [high, low] = number.to_be_bytes();
        parse(names, &[high, low, 0xD0, 0x42, 0, 7]);
        parse(names, &[0, 10, 0xD0, 0x13, high, low]);
        parse(names, &[0, 6, high, low, 1, 2, 3][..low as usize % 8]);
        parse(names, &[0, 6, high, low, 1, 2]);
        let dss_type = 1 + low % 4;
        let set = [low & 4 != 0, low & 8 != 0, low & 16 != 0];
        write(names, (number, dss_type, set, 7));
        write(names, (10, dss_type, set, number));
    }
}

fn parse(names: &mut Names, bytes: &[u8]) {
    let given = (port::heads::parse(bytes), rust::heads::parse(bytes));
    names.or_five(PARSE, bytes, given.0, given.1, || {
        let mut request = bytes.to_vec();
        five::as_request(&mut request);
        let (length, _, set, id) = rust::heads::parse(&request)?;
        Ok((length, five::NO_REPLY, set, id))
    });
}

fn write(names: &mut Names, head: Head) {
    let given = (port::heads::serialize(head), rust::heads::serialize(head));
    let input = rust::heads::serialize(head);
    names.same(SERIALIZE, &input, given.0, given.1);
}

/// Written, shown, and told from another one and from itself.
fn written(names: &mut Names, head: Head, other: Head) {
    write(names, head);
    for other in [head, other] {
        let given = (
            port::heads::shown(head, other),
            rust::heads::shown(head, other),
        );
        let input = rust::heads::serialize(head);
        names.same(&["DssHeader"], &input, given.0, given.1);
    }
}

fn random_head(chance: &mut Chance) -> Head {
    let bits = chance.byte();
    let length = [chance.next() as u16, 6, 0xFFFF][chance.below(3)];
    let set = [bits & 1 != 0, bits & 2 != 0, bits & 4 != 0];
    (
        length,
        1 + bits / 64,
        set,
        [7, chance.next() as u16][chance.below(2)],
    )
}
