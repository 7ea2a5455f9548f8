//! The Rust's ddm.rs. Its text is a module here too, so that its private functions can be called; and its lengths, in document
//! 01's numbers. Where they lose bits, document 01's answer stands in, and what the Rust does there is foretold and held to
//! what it did.
use crate::answers::{self, done, refused, Words};
use crate::{shown, Tally};
use db2_proto::ProtoError;

#[allow(dead_code)]
pub mod text {
    include!(concat!(
        env!("CARGO_MANIFEST_DIR"),
        "/../target/compare/oracle/src/ddm.rs"
    ));

    pub fn marshaled_length(bytes: &[u8]) -> Result<(usize, usize)> {
        parse_marshaled_length(bytes)
    }

    pub fn stripped(data: &[u8]) -> Vec<u8> {
        strip_extended_ddm_continuation_markers(data)
    }

    pub fn header_len(payload_len: usize) -> usize {
        serialized_header_len(payload_len)
    }

    pub fn data_of(builder: &DdmBuilder) -> &[u8] {
        &builder.data
    }
}

// ---- lengths

/// The Rust's error as a refusal at a place. The numbers that it only tells in a message are read from there.
pub fn of_error(error: &ProtoError, place: usize) -> Words {
    let ProtoError::Other(message) = error else {
        return answers::of_error(error, place as u64);
    };
    let told: Vec<&str> = message.split(' ').collect();
    let number = |at: usize| told[at].parse().expect("a number");
    match told[..] {
        ["DDM", "length", _, "is", "less", "than", "header", "size", _, "for", "code", "point", hex] =>
        {
            let code_point = u64::from_str_radix(&hex[2..], 16).expect("a code point");
            refused(5, place as u64, &[number(2), number(8), code_point])
        }
        ["extended", "DDM", "header", "length", _, "is", "less", "than", "minimum", "4"] => {
            refused(6, place as u64, &[number(4)])
        }
        _ => panic!("an error that has no number: {error:?}"),
    }
}

/// Two bytes as a number.
pub fn raw_length(bytes: &[u8]) -> usize {
    bytes[0] as usize * 256 + bytes[1] as usize
}

/// A length of document 01's answer 8.
pub struct TooLarge {
    pub header: usize,
    /// What is left of it in 64 bits.
    pub wrapped: usize,
}

/// "8 when the number in all length bytes plus header length exceeds 2^64 - 1", by a sum that is checked.
pub fn too_large(bytes: &[u8]) -> Option<TooLarge> {
    if bytes.len() < 4 || raw_length(bytes) <= 0x8004 {
        return None;
    }
    let header = raw_length(bytes) - 0x8000;
    let length_bytes = bytes.get(4..header)?;
    let put = |n: usize, b: &u8| n.checked_mul(256)?.checked_add(*b as usize);
    let number = length_bytes.iter().try_fold(0, put);
    if number.and_then(|n| n.checked_add(header)).is_some() {
        return None;
    }
    let put = |n: usize, b: &u8| n.wrapping_mul(256).wrapping_add(*b as usize);
    let wrapped = length_bytes.iter().fold(0, put).wrapping_add(header);
    Some(TooLarge { header, wrapped })
}

/// What a length field says, in words.
pub fn marshaled(tally: &mut Tally, bytes: &[u8]) -> Words {
    let rust = match text::marshaled_length(bytes) {
        Ok((total, header)) => done(&[total as u64, header as u64]),
        Err(error) => of_error(&error, 0),
    };
    let Some(large) = too_large(bytes) else {
        return rust;
    };
    let astray = done(&[large.wrapped as u64, large.header as u64]);
    tally.own("a length that loses bits", shown(bytes), astray, rust);
    refused(8, 0, &[large.header as u64])
}
