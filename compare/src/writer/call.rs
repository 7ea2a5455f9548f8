//! The calls that write a frame: the port's, and the Rust's of the same names. Of a type 5, which the Rust doesn't have, it is the
//! Rust's request with that type.
use crate::port::{self, Loan};
use crate::{five, By, Chance};
use db2_proto::dss::{self, DssFlags, DssType, DssWriter};
use db2_proto::Result;
use Call::*;

/// A call that writes a frame, with its numbers as the port takes them.
#[derive(Clone, Copy)]
pub enum Call {
    Full { dss_type: u8, flags: u8 },
    Dss { dss_type: u8, chained: u8 },
    Request { chained: u8 },
    RequestNoReply { chained: u8 },
    Object { chained: u8 },
    ObjectSame { chained: u8 },
    RequestSame { chained: u8 },
    BuildRequest { chained: u8 },
    BuildObject { chained: u8 },
}

/// What the Rust comes to: the frame, and the correlation that its writer then has.
pub type Frame = Result<(Vec<u8>, u16)>;

impl Call {
    /// Its name, and its numbers.
    pub fn named(self) -> (&'static str, u8, u8) {
        match self {
            Full { dss_type, flags } => ("write_dss_full", dss_type, flags),
            Dss { dss_type, chained } => ("write_dss", dss_type, chained),
            Request { chained } => ("write_request", 0, chained),
            RequestNoReply { chained } => ("write_request_no_reply", 0, chained),
            Object { chained } => ("write_object", 0, chained),
            ObjectSame { chained } => ("write_object_same_corr", 0, chained),
            RequestSame { chained } => ("write_request_next_same_corr", 0, chained),
            BuildRequest { chained } => ("build_dss_request", 0, chained),
            BuildObject { chained } => ("build_dss_object", 0, chained),
        }
    }

    /// A builder starts at the room's first byte, and answers the number of bytes alone.
    pub fn builds(self) -> bool {
        matches!(self, BuildRequest { .. } | BuildObject { .. })
    }

    /// The call that the Rust makes instead, where it would refuse a type 5, and whether it does.
    fn stand_in(self) -> (Call, bool) {
        match self {
            Full { dss_type, flags } => {
                let (dss_type, no_reply) = five::stand_in(dss_type);
                (Full { dss_type, flags }, no_reply)
            }
            Dss { dss_type, chained } => {
                let (dss_type, no_reply) = five::stand_in(dss_type);
                (Dss { dss_type, chained }, no_reply)
            }
            RequestNoReply { chained } => (Request { chained }, true),
            other => (other, false),
        }
    }

    /// Whether it writes a frame of type 5.
    pub fn no_reply(self) -> bool {
        self.stand_in().1
    }

    /// Who says what is due.
    pub fn by(self) -> By {
        match self.no_reply() {
            true => By::Five,
            false => By::Rust,
        }
    }

    /// The Rust's call on a writer; of a frame of type 5, that of a request.
    pub fn rust(self, writer: &mut DssWriter, payload: &[u8]) -> Result<()> {
        match self.stand_in().0 {
            Full { dss_type, flags } => {
                let flags = DssFlags::from_byte(flags);
                let dss_type = DssType::from_byte(dss_type)?;
                writer.write_dss_full(dss_type, flags.chained, flags.same_correlation, payload);
            }
            Dss { dss_type, chained } => {
                writer.write_dss(DssType::from_byte(dss_type)?, chained != 0, payload);
            }
            Request { chained } => writer.write_request(payload, chained != 0),
            Object { chained } => writer.write_object(payload, chained != 0),
            ObjectSame { chained } => writer.write_object_same_corr(payload, chained != 0),
            RequestSame { chained } => writer.write_request_next_same_corr(payload, chained != 0),
            RequestNoReply { .. } => panic!("a request stands in for it"),
            BuildRequest { .. } | BuildObject { .. } => panic!("a builder has no writer"),
        }
        Ok(())
    }

    /// The Rust's frame, from a writer of its own or from a builder.
    pub fn rust_frame(self, id: u16, payload: &[u8]) -> Frame {
        match self {
            BuildRequest { chained } => Ok((dss::build_dss_request(id, chained != 0, payload), id)),
            BuildObject { chained } => Ok((dss::build_dss_object(id, chained != 0, payload), id)),
            _ => {
                let mut writer = DssWriter::new(id);
                self.rust(&mut writer, payload)?;
                let mut frame = writer.finish();
                if self.no_reply() {
                    five::made(&mut frame);
                }
                Ok((frame, writer.correlation_id()))
            }
        }
    }

    /// The port's call.
    pub fn port(self, id: u16, fill: usize, loan: Loan) -> u8 {
        match self {
            Full { dss_type, flags } => port::write_dss_full(id, fill, dss_type, flags, loan),
            Dss { dss_type, chained } => port::write_dss(id, fill, dss_type, chained, loan),
            Request { chained } => port::write_request(id, fill, chained, loan),
            RequestNoReply { chained } => port::write_request_no_reply(id, fill, chained, loan),
            Object { chained } => port::write_object(id, fill, chained, loan),
            ObjectSame { chained } => port::write_object_same_corr(id, fill, chained, loan),
            RequestSame { chained } => port::write_request_next_same_corr(id, fill, chained, loan),
            BuildRequest { chained } => port::build_dss_request(id, chained, loan),
            BuildObject { chained } => port::build_dss_object(id, chained, loan),
        }
    }
}

/// Every call, with every type and every choice of the flags that it takes.
pub fn every_call() -> Vec<Call> {
    let mut calls = Vec::new();
    for dss_type in 1..=5 {
        calls.extend([0, 0x10, 0x40, 0x50].map(|flags| Full { dss_type, flags }));
        calls.extend([0, 1].map(|chained| Dss { dss_type, chained }));
    }
    for chained in [0, 1] {
        calls.extend(every_thin(chained));
    }
    calls
}

/// The calls that take no type.
pub fn every_thin(chained: u8) -> [Call; 7] {
    [
        Request { chained },
        RequestNoReply { chained },
        Object { chained },
        ObjectSame { chained },
        RequestSame { chained },
        BuildRequest { chained },
        BuildObject { chained },
    ]
}

/// Every call, and two whose type is none.
pub fn and_no_type() -> impl Iterator<Item = Call> {
    let (dss_type, flags, chained) = (6, 0x40, 1);
    let none = [Full { dss_type, flags }, Dss { dss_type, chained }];
    every_call().into_iter().chain(none)
}

/// A call of random numbers.
pub fn random_call(chance: &mut Chance) -> Call {
    let kind = chance.below(9);
    let any = chance.byte();
    // One of the five types with any high bits, now and then any byte.
    let dss_type = match chance.below(8) {
        0 => chance.byte(),
        _ => (chance.byte() & 0xF0) + 1 + chance.below(5) as u8,
    };
    let chained = [0, 1, any][chance.below(3)];
    match kind {
        0 => Full {
            dss_type,
            flags: any,
        },
        1 => Dss { dss_type, chained },
        _ => every_thin(chained)[kind - 2],
    }
}
