// What is seen of this side's values.
use crate::answers::Bytes;
use crate::names::seen::{Case, Derived, Frame, Head, Why};
use proto::dss::{DssFrame, DssHeader};
use proto::ProtoError;
use std::fmt::Debug;

pub fn why(error: ProtoError) -> Why {
    let (text, debug) = (error.to_string(), format!("{error:?}"));
    let same = error.clone() == error;
    assert!(same, "an error's clone is another");
    let case = match error {
        ProtoError::InvalidMagic(byte) => Case::Magic(byte),
        ProtoError::BufferTooShort { expected, actual } => Case::TooShort(expected, actual),
        ProtoError::InvalidDssType(low) => Case::Type(low),
        ProtoError::Other(text) => Case::Other(text),
        _ => Case::Unshared,
    };
    Why { case, text, debug }
}

pub fn head(header: &DssHeader) -> Head {
    let flags = header.flags;
    let bits = [
        flags.chained,
        flags.continue_on_error,
        flags.same_correlation,
    ];
    let dss_type = header.dss_type.to_byte();
    (header.length, dss_type, bits, header.correlation_id)
}

pub fn frame(frame: DssFrame) -> Frame {
    (head(&frame.header), Bytes(frame.payload))
}

/// A value and its clone.
pub fn derived<T: Debug + Clone>(value: &T, equal: impl FnOnce(&T, &T) -> bool) -> Derived {
    let clone = value.clone();
    Derived {
        shown: format!("{value:?} {value:#?}"),
        clone: format!("{clone:?}"),
        equal: equal(value, &clone),
    }
}
