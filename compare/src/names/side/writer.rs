// The writer.
use crate::answers::Bytes;
use crate::writer::call::Call::{self, *};
use proto::dss::{build_dss_object, build_dss_request, DssType, DssWriter};

#[derive(Clone)]
pub struct Writer(DssWriter);

fn dss_type(b: u8) -> DssType {
    DssType::from_byte(b).expect("a type")
}

impl Writer {
    pub fn new(id: u16) -> Writer {
        Writer(DssWriter::new(id))
    }

    pub fn write(&mut self, call: Call, payload: &[u8]) {
        let writer = &mut self.0;
        match call {
            Full { dss_type: b, flags } => {
                let (chained, same) = (flags & 0x40 != 0, flags & 0x10 != 0);
                writer.write_dss_full(dss_type(b), chained, same, payload);
            }
            Dss {
                dss_type: b,
                chained,
            } => writer.write_dss(dss_type(b), chained != 0, payload),
            Request { chained } => writer.write_request(payload, chained != 0),
            Object { chained } => writer.write_object(payload, chained != 0),
            ObjectSame { chained } => writer.write_object_same_corr(payload, chained != 0),
            RequestSame { chained } => writer.write_request_next_same_corr(payload, chained != 0),
            RequestNoReply { .. } => panic!("db2-proto doesn't have it"),
            BuildRequest { .. } | BuildObject { .. } => panic!("a builder has no writer"),
        }
    }

    /// What is written so far, and the correlation.
    pub fn state(&self) -> (Bytes, u16) {
        (Bytes(self.0.data().to_vec()), self.0.correlation_id())
    }

    pub fn set(&mut self, id: u16) {
        self.0.set_correlation_id(id);
    }

    pub fn next(&mut self) -> u16 {
        self.0.next_correlation_id()
    }

    pub fn finish(&mut self) -> Bytes {
        Bytes(self.0.finish())
    }

    /// All that it holds, and its clone.
    pub fn shown(&self) -> String {
        format!("{:?} {:?}", self.0, self.0.clone())
    }
}

/// One of the two builders.
pub fn build(call: Call, id: u16, payload: &[u8]) -> Bytes {
    Bytes(match call {
        BuildRequest { chained } => build_dss_request(id, chained != 0, payload),
        BuildObject { chained } => build_dss_object(id, chained != 0, payload),
        _ => panic!("no builder"),
    })
}
