//! What the calls are timed on.

use db2_proto::ddm::DdmBuilder;
use db2_proto::dss::{DssType, DssWriter};

pub const CODE_POINT: u16 = 0x2205;

/// The code points of a reply's parameters.
pub const PARAMS: std::ops::Range<u16> = 0x2100..0x2128;

/// Bytes of no pattern: a linear congruence, so that each run has the same.
pub fn noise(len: usize) -> Vec<u8> {
    let mut state = 0x2545_F491u32;
    (0..len)
        .map(|_| {
            state = state.wrapping_mul(1_664_525).wrapping_add(1_013_904_223);
            (state >> 24) as u8
        })
        .collect()
}

/// A run of so many frames with payloads of so many bytes, as the Rust writes them; none absorbs the next.
pub fn frames(count: usize, payload_len: usize) -> Vec<u8> {
    let payload = noise(payload_len);
    let mut writer = DssWriter::new(1);
    for _ in 0..count {
        writer.write_dss(DssType::Reply, true, &payload);
        writer.next_correlation_id();
    }
    writer.finish()
}

/// The data of a reply's parameter.
pub fn param_data(code_point: u16) -> Vec<u8> {
    noise(2 + code_point as usize % 16)
}

/// A reply with 40 parameters, as the Rust builds it.
pub fn reply() -> Vec<u8> {
    let mut builder = DdmBuilder::new(CODE_POINT);
    for code_point in PARAMS {
        builder.add_code_point(code_point, &param_data(code_point));
    }
    builder.build()
}

/// An object of raw length 0x8004 with a marker before each chunk but the first, of so many bytes.
pub fn marked(len: usize) -> Vec<u8> {
    let mut object = vec![0x80, 0x04, 0x24, 0x1B];
    object.extend(noise(32_757));
    let chunk = noise(32_764);
    while object.len() < len {
        object.extend([0x7F, 0xFE]);
        object.extend(&chunk);
    }
    object.truncate(len);
    object
}
