//! What is seen of either crate's values, in types that are neither's.
use crate::answers::Bytes;

/// An error: its case with its values, its text, and as it is shown for debugging.
#[derive(PartialEq, Debug, Clone)]
pub struct Why {
    pub case: Case,
    pub text: String,
    pub debug: String,
}

/// The cases that both crates have; the others can't be named in code that is written for both.
#[derive(PartialEq, Debug, Clone)]
pub enum Case {
    Magic(u8),
    TooShort(usize, usize),
    Type(u8),
    Other(String),
    Unshared,
}

pub type Seen<T> = Result<T, Why>;

/// A head: length, type, chained, continue on error, same correlation, correlation.
pub type Head = (u16, u8, [bool; 3], u16);

/// A frame: its head and its payload.
pub type Frame = (Head, Bytes);

/// An object or a parameter: its code point and its data.
pub type Item = (u16, Bytes);

/// A value as it is shown for debugging, its clone too, and whether the two are equal.
#[derive(PartialEq, Debug)]
pub struct Derived {
    pub shown: String,
    pub clone: String,
    pub equal: bool,
}
