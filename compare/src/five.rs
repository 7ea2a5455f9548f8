//! Type 5, a request that wants no reply (document 02, W-210). The Rust has the types 1 to 4: where it answers
//! `InvalidDssType(5)`, and nowhere else, its answer is left out, and the port is held to the documents. Heads and written frames
//! are then the Rust's own of a request, with a 5 for its 1; readings are the model's.
use crate::By;
use db2_proto::dss::{DssHeader, DssType};
use db2_proto::{ProtoError, Result};

pub const REQUEST: u8 = 1;
pub const NO_REPLY: u8 = 5;

/// The Rust's refusal of a type 5.
pub fn refused<T>(given: &Result<T>) -> bool {
    matches!(given, Err(ProtoError::InvalidDssType(NO_REPLY)))
}

/// Who says what is due, where the Rust says this.
pub fn by<T>(given: &Result<T>) -> By {
    match refused(given) {
        true => By::Five,
        false => By::Rust,
    }
}

/// The byte of a type, with a request's number where the Rust refuses it as a type 5; and whether it does.
pub fn stand_in(dss_type: u8) -> (u8, bool) {
    match refused(&DssType::from_byte(dss_type)) {
        true => (REQUEST, true),
        false => (dss_type, false),
    }
}

/// A frame or a head of a request, made one that wants no reply.
pub fn made(bytes: &mut [u8]) {
    assert!(bytes[3] & 0x0F == REQUEST, "no request");
    bytes[3] += NO_REPLY - REQUEST;
}

/// The other way round.
pub fn as_request(bytes: &mut [u8]) {
    assert!(bytes[3] & 0x0F == NO_REPLY, "no type 5");
    bytes[3] -= NO_REPLY - REQUEST;
}

/// What the Rust reads of a head that it refuses as a type 5, where a request's number stands there.
pub fn parsed(bytes: &[u8]) -> Result<DssHeader> {
    let mut request = bytes.to_vec();
    as_request(&mut request);
    DssHeader::parse(&request)
}
