//! Parameters as the Rust's builder is given them, and with one of them changed.
use crate::ddm::rust::text::{data_of, DdmBuilder};
use crate::Chance;

/// Code points and data.
pub type Values = Vec<(u16, Vec<u8>)>;

/// A code point of a few, so that some stand twice.
pub fn code_point(chance: &mut Chance) -> u16 {
    0x2401 + chance.below(4) as u16
}

/// Up to twelve bytes; once in so many times as many as are just inline, or a few less or more.
pub fn value(chance: &mut Chance, times: usize) -> Vec<u8> {
    let len = match chance.below(times) {
        0 => 32_757 + chance.below(14),
        _ => chance.below(13),
    };
    chance.bytes(len)
}

/// Up to six of them.
pub fn values(chance: &mut Chance, times: usize) -> Values {
    (0..chance.below(7))
        .map(|_| (code_point(chance), value(chance, times)))
        .collect()
}

/// With the first one of a code point changed, where there is one.
pub fn changed(values: &Values, code_point: u16, new: &[u8]) -> Option<Values> {
    let mut values = values.clone();
    let first = values.iter_mut().find(|(cp, _)| *cp == code_point)?;
    first.1 = new.to_vec();
    Some(values)
}

fn builder(code_point: u16, values: &Values) -> DdmBuilder {
    let mut builder = DdmBuilder::new(code_point);
    for (code_point, data) in values {
        builder.add_code_point(*code_point, data);
    }
    builder
}

/// The data that the Rust's builder makes of them.
pub fn data(values: &Values) -> Vec<u8> {
    data_of(&builder(0, values)).to_vec()
}

/// The object that the Rust's builder makes of them.
pub fn object(code_point: u16, values: &Values) -> Vec<u8> {
    builder(code_point, values).build()
}
