//! The writer.
use super::{DssFlags, DssType};
use crate::loan::{append, built};
use crate::port;

/// Writes frames one behind the other.
#[derive(Debug, Clone)]
pub struct DssWriter {
    correlation_id: u16,
    buffer: Vec<u8>,
}

impl DssWriter {
    /// A writer that has written nothing.
    pub fn new(initial_correlation_id: u16) -> Self {
        Self {
            correlation_id: initial_correlation_id,
            buffer: Vec::new(),
        }
    }

    /// Hands out what is written and empties the writer; the correlation stays.
    pub fn finish(&mut self) -> Vec<u8> {
        std::mem::take(&mut self.buffer)
    }

    /// What is written.
    pub fn data(&self) -> &[u8] {
        &self.buffer
    }

    /// The correlation that the next frame gets.
    pub fn correlation_id(&self) -> u16 {
        self.correlation_id
    }

    /// Sets it.
    pub fn set_correlation_id(&mut self, id: u16) {
        self.correlation_id = id;
    }

    /// Goes on to the next one, 0 after 65,535, and hands that out.
    pub fn next_correlation_id(&mut self) -> u16 {
        self.correlation_id = port::next_correlation_id(self.correlation_id);
        self.correlation_id
    }

    /// Writes a frame around a payload, in as many segments as it takes.
    pub fn write_dss_full(
        &mut self,
        dss_type: DssType,
        chained: bool,
        same_correlation: bool,
        payload: &[u8],
    ) {
        let flags = DssFlags {
            chained,
            same_correlation,
            ..DssFlags::none()
        };
        let (dss_type, flags) = (dss_type.to_byte(), flags.to_byte());
        self.write(payload, |id, fill, room, words| {
            port::write_dss_full(id, fill, dss_type, flags, payload, room, words)
        });
    }

    /// The same with same correlation clear.
    pub fn write_dss(&mut self, dss_type: DssType, chained: bool, payload: &[u8]) {
        let dss_type = dss_type.to_byte();
        self.write(payload, |id, fill, room, words| {
            port::write_dss(id, fill, dss_type, chained as u8, payload, room, words)
        });
    }

    /// A request.
    pub fn write_request(&mut self, payload: &[u8], chained: bool) {
        self.write(payload, |id, fill, room, words| {
            port::write_request(id, fill, chained as u8, payload, room, words)
        });
    }

    /// A request that wants no reply. db2-proto doesn't have it.
    pub fn write_request_no_reply(&mut self, payload: &[u8], chained: bool) {
        self.write(payload, |id, fill, room, words| {
            port::write_request_no_reply(id, fill, chained as u8, payload, room, words)
        });
    }

    /// An object.
    pub fn write_object(&mut self, payload: &[u8], chained: bool) {
        self.write(payload, |id, fill, room, words| {
            port::write_object(id, fill, chained as u8, payload, room, words)
        });
    }

    /// An object with same correlation set.
    pub fn write_object_same_corr(&mut self, payload: &[u8], chained: bool) {
        self.write(payload, |id, fill, room, words| {
            port::write_object_same_corr(id, fill, chained as u8, payload, room, words)
        });
    }

    /// A request with same correlation set.
    pub fn write_request_next_same_corr(&mut self, payload: &[u8], chained: bool) {
        self.write(payload, |id, fill, room, words| {
            port::write_request_next_same_corr(id, fill, chained as u8, payload, room, words)
        });
    }

    /// Makes a call with the correlation, the fill mark, and room for a frame behind it.
    fn write(
        &mut self,
        payload: &[u8],
        call: impl FnOnce(u16, usize, &mut [u8], &mut [u64]) -> u8,
    ) {
        let (id, size) = (self.correlation_id, port::frame_size(payload.len()));
        append(&mut self.buffer, size, |fill, room, words| {
            call(id, fill, room, words)
        });
    }
}

/// A request's frame.
///
/// ```
/// let frame = lattrugone::dss::build_dss_request(1, false, &[0x00, 0x04, 0x20, 0x0D]);
/// assert_eq!(frame, [0x00, 0x0A, 0xD0, 0x01, 0x00, 0x01, 0x00, 0x04, 0x20, 0x0D]);
/// ```
pub fn build_dss_request(correlation_id: u16, chained: bool, payload: &[u8]) -> Vec<u8> {
    built(|loan| {
        let (room, words) = (&mut loan.room, &mut loan.words);
        port::build_dss_request(correlation_id, chained as u8, payload, room, words)
    })
}

/// An object's frame.
pub fn build_dss_object(correlation_id: u16, chained: bool, payload: &[u8]) -> Vec<u8> {
    built(|loan| {
        let (room, words) = (&mut loan.room, &mut loan.words);
        port::build_dss_object(correlation_id, chained as u8, payload, room, words)
    })
}
