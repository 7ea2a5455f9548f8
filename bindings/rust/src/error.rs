use crate::port::Words;
use std::fmt;

/// Why something wasn't read or changed: db2-proto's cases that its modules dss and ddm give, two for what stops it there, and six
/// of what is added: five of [`crate::dss::change_request`] and [`crate::ddm::DdmObject::with_param`], and one of
/// [`crate::dss::DssReader::take_into`].
#[derive(Debug, Clone, PartialEq)]
pub enum ProtoError {
    /// A head's third byte isn't D0.
    InvalidMagic(u8),
    /// Fewer bytes than a head, an object or its header takes.
    BufferTooShort {
        /// So many are needed.
        expected: usize,
        /// So many are there.
        actual: usize,
    },
    /// The low four bits of a format byte aren't a type.
    InvalidDssType(u8),
    /// A head says a length below 6. db2-proto stops.
    LengthTooShort(u16),
    /// An extended DDM length, with its header of so many bytes, is above 2^64 - 1. db2-proto loses bits or stops.
    LengthTooLarge(usize),
    /// The frame that is to be changed isn't whole.
    Incomplete,
    /// The frame that is to be changed is never whole, whatever bytes follow: a continuation length is 0 or 1. The reader gives
    /// no error there: see [`crate::dss::DssReader::dead_at`].
    DeadContinuation {
        /// The first byte of that length.
        place: usize,
    },
    /// There is no parameter with that code point.
    NotFound,
    /// What is to be changed isn't sound: parameters don't fill their data, a raw length is 0x8004, or bytes are left over
    /// behind a frame or its one object.
    UnsoundData {
        /// The first byte of the parameter or object at fault, or of what is left over.
        place: usize,
    },
    /// The changed frame would end in a full chunk: the reader wouldn't find it whole.
    UnreadableSize,
    /// The room that is lent is shorter than the payload that is to be taken.
    NoRoom {
        /// So many bytes are needed.
        needed: usize,
    },
    /// An inline DDM length below 4, or an extended DDM header below 4: db2-proto's text.
    Other(String),
}

impl fmt::Display for ProtoError {
    fn fmt(&self, f: &mut fmt::Formatter<'_>) -> fmt::Result {
        match self {
            ProtoError::InvalidMagic(byte) => write!(f, "invalid DSS magic byte: 0x{byte:02X}"),
            ProtoError::BufferTooShort { expected, actual } => {
                write!(
                    f,
                    "buffer too short: expected {expected} bytes, got {actual}"
                )
            }
            ProtoError::InvalidDssType(low) => write!(f, "invalid DSS type: 0x{low:02X}"),
            ProtoError::LengthTooShort(length) => {
                write!(f, "DSS length {length} is less than header size 6")
            }
            ProtoError::LengthTooLarge(header) => {
                write!(
                    f,
                    "extended DDM length behind a header of {header} bytes is too large"
                )
            }
            ProtoError::Incomplete => write!(f, "frame isn't whole"),
            ProtoError::DeadContinuation { place } => {
                write!(
                    f,
                    "frame is never whole: continuation length of 0 or 1 at byte {place}"
                )
            }
            ProtoError::NotFound => write!(f, "no such parameter"),
            ProtoError::UnsoundData { place } => write!(f, "unsound data at byte {place}"),
            ProtoError::UnreadableSize => write!(f, "changed frame would end in a full chunk"),
            ProtoError::NoRoom { needed } => write!(f, "no room: {needed} bytes are needed"),
            ProtoError::Other(text) => write!(f, "{text}"),
        }
    }
}

impl std::error::Error for ProtoError {}

/// What db2-proto's functions give.
pub type Result<T> = std::result::Result<T, ProtoError>;

/// A refusal's words: its number, its place, its values.
#[derive(Debug, Clone, Copy)]
pub(crate) struct Refusal(pub Words);

impl Refusal {
    /// Whether it says that a frame isn't whole, yet or ever.
    pub fn is_not_whole(&self) -> bool {
        self.0[0] == 1 || self.is_never_whole()
    }

    pub fn is_never_whole(&self) -> bool {
        self.0[0] == 16
    }

    pub fn is_no_room(&self) -> bool {
        self.0[0] == 9
    }

    pub fn place(&self) -> usize {
        self.0[1] as usize
    }

    /// The error that it is, with db2-proto's text where that has one.
    pub fn error(&self) -> ProtoError {
        let [number, place, first, second, third, ..] = self.0;
        match number {
            1 => ProtoError::Incomplete,
            2 => ProtoError::InvalidMagic(first as u8),
            3 => ProtoError::InvalidDssType(first as u8),
            4 => ProtoError::BufferTooShort {
                expected: first as usize,
                actual: second as usize,
            },
            5 => ProtoError::Other(format!(
                "DDM length {first} is less than header size {second} for code point 0x{third:04X}"
            )),
            6 => ProtoError::Other(format!(
                "extended DDM header length {first} is less than minimum 4"
            )),
            7 => ProtoError::LengthTooShort(first as u16),
            8 => ProtoError::LengthTooLarge(first as usize),
            9 => ProtoError::NoRoom {
                needed: first as usize,
            },
            11 => ProtoError::NotFound,
            16 => ProtoError::DeadContinuation {
                place: place as usize,
            },
            17 => ProtoError::UnsoundData {
                place: place as usize,
            },
            18 => ProtoError::UnreadableSize,
            // No function of this crate is refused with another number: it keeps its own positions.
            _ => ProtoError::Other(format!("refused with number {number} at {place}")),
        }
    }
}

impl From<Refusal> for ProtoError {
    fn from(refusal: Refusal) -> Self {
        refusal.error()
    }
}
