//! A segment's head.
use super::DSS_HEADER_LEN;
use crate::loan::ask;
use crate::port;
use crate::Result;

/// A frame's type.
#[derive(Debug, Clone, Copy, PartialEq, Eq)]
pub enum DssType {
    /// 1
    Request,
    /// 2
    Reply,
    /// 3
    Object,
    /// 4
    Communication,
    /// 5, a request that wants no reply. db2-proto doesn't have it.
    NoReply,
}

impl DssType {
    /// The type in the low four bits of a byte.
    pub fn from_byte(b: u8) -> Result<Self> {
        let words = ask(|words| port::type_from_byte(b, words))?;
        Ok(match words[2] {
            1 => DssType::Request,
            2 => DssType::Reply,
            3 => DssType::Object,
            4 => DssType::Communication,
            _ => DssType::NoReply,
        })
    }

    /// The type's byte.
    pub fn to_byte(self) -> u8 {
        match self {
            DssType::Request => 1,
            DssType::Reply => 2,
            DssType::Object => 3,
            DssType::Communication => 4,
            DssType::NoReply => 5,
        }
    }
}

/// The flags in a format byte.
#[derive(Debug, Clone, Copy, PartialEq, Eq)]
pub struct DssFlags {
    /// More frames follow in this chain.
    pub chained: bool,
    /// Read, and never written.
    pub continue_on_error: bool,
    /// A frame may be absorbed into the one before.
    pub same_correlation: bool,
}

const CHAINED: u8 = 0x40;
const CONTINUE_ON_ERROR: u8 = 0x20;
const SAME_CORRELATION: u8 = 0x10;

impl DssFlags {
    /// All clear.
    pub fn none() -> Self {
        Self::of(0)
    }

    /// The flags' byte.
    pub fn to_byte(self) -> u8 {
        let bit = |set, bit| if set { bit } else { 0 };
        bit(self.chained, CHAINED)
            | bit(self.continue_on_error, CONTINUE_ON_ERROR)
            | bit(self.same_correlation, SAME_CORRELATION)
    }

    /// The flags in a format byte.
    pub fn from_byte(b: u8) -> Self {
        Self::of(port::flags_from_byte(b))
    }

    fn of(flags: u8) -> Self {
        Self {
            chained: flags & CHAINED != 0,
            continue_on_error: flags & CONTINUE_ON_ERROR != 0,
            same_correlation: flags & SAME_CORRELATION != 0,
        }
    }
}

/// A head.
#[derive(Debug, Clone, PartialEq, Eq)]
pub struct DssHeader {
    /// 32,767 where the head says FFFF.
    pub length: u16,
    /// The frame's type.
    pub dss_type: DssType,
    /// Its flags.
    pub flags: DssFlags,
    /// Its correlation.
    pub correlation_id: u16,
}

impl DssHeader {
    /// The head at the front of `data`.
    pub fn parse(data: &[u8]) -> Result<Self> {
        let words = ask(|words| port::head_parse(data, words))?;
        let [_, _, length, dss_type, flags, correlation, ..] = words;
        Self::of([length, dss_type | flags, correlation])
    }

    /// Its six bytes; the length goes as it is.
    pub fn serialize(&self) -> [u8; DSS_HEADER_LEN] {
        let mut room = [0; DSS_HEADER_LEN];
        let (dss_type, flags) = (self.dss_type.to_byte(), self.flags.to_byte());
        ask(|words| {
            port::head_serialize(
                self.length,
                dss_type,
                flags,
                self.correlation_id,
                &mut room,
                words,
            )
        })
        .expect("a type's own byte, and room for six bytes");
        room
    }

    /// The first head of a frame, of its words.
    pub(super) fn of_frame<const WIDTH: usize>(words: &[u64; WIDTH]) -> Result<Self> {
        Self::of([words[2], words[3], words[4]])
    }

    fn of([length, format, correlation]: [u64; 3]) -> Result<Self> {
        Ok(Self {
            length: length as u16,
            dss_type: DssType::from_byte(format as u8)?,
            flags: DssFlags::from_byte(format as u8),
            correlation_id: correlation as u16,
        })
    }
}
