//! Module 1 of document 01: raw lengths, and the format byte's type and flags. The port's functions against the Rust's of the
//! same names.
use crate::answers::{answered, done, expected, of_error, Words};
use crate::lent::Lent;
use crate::{five, port};
use crate::{By, Tally};
use db2_proto::dss::{DssFlags, DssHeader, DssReader, DssType};

pub fn compare(tally: &mut Tally) {
    raw_lengths(tally);
    format_bytes(tally);
}

// ---- lengths

/// Every raw length: as a head's, and as a continuation's.
fn raw_lengths(tally: &mut Tally) {
    let mut run = vec![0; 3 * 0x8000 + 64];
    for raw in 0..=u16::MAX {
        let [high, low] = raw.to_be_bytes();
        let input = [high, low];
        // The Rust's decode_dss_length is private: DssHeader::parse shows what it makes of a raw length.
        let head = DssHeader::parse(&[high, low, 0xD0, 2, 0, 7]).expect("a head");
        let port = port::decode_dss_length(raw);
        tally.same("decode_dss_length", &input, port, head.length);

        let (chunk, len) = continuation(&mut run, raw);
        let port = port::decide_continuation(raw);
        tally.same("decide_continuation", &input, port, chunk);
        let (port, full) = (port::is_full_continuation_len(raw), (chunk == 2) as u8);
        tally.same("is_full_continuation_len", &input, port, full);
        let port = port::decode_continuation_len(raw);
        let by = if chunk == 0 { By::Document } else { By::Rust };
        tally.held(by, "decode_continuation_len", &input, port, len);
    }
}

/// What the Rust makes of a continuation's raw length: 0 dead, 1 the last, 2 full and another must follow; and the bytes that
/// it takes. Its is_full_continuation_len and decode_continuation_len are private; first_complete_frame_len shows them. It
/// is given a first segment of raw length FFFF, this continuation with as many bytes as any can take, and, where a full one
/// ends, another of two bytes and then of three. The end moves with that other one exactly where this one is full. Of 0 and 1
/// the Rust shows only that they are never whole, so that they are fewer than two bytes; that they are 0 and 1 is document 01's.
pub fn continuation(run: &mut [u8], raw: u16) -> (u8, usize) {
    run[..2].copy_from_slice(&[0xFF, 0xFF]);
    run[32767..32769].copy_from_slice(&raw.to_be_bytes());
    let mut end_before = |next: u8| {
        run[2 * 32767..2 * 32767 + 2].copy_from_slice(&[0, next]);
        DssReader::first_complete_frame_len(run)
    };
    match (end_before(2), end_before(3)) {
        (None, None) => (0, raw as usize),
        (Some(a), Some(b)) if a == b => (1, a - 32767),
        (Some(a), Some(b)) if a + 1 == b => (2, a - 32767 - 2),
        other => panic!("ends that don't fit: {other:?}"),
    }
}

// ---- the format byte

/// Every byte as a type, with every number of words from none to twelve, and as flags.
fn format_bytes(tally: &mut Tally) {
    let mut lent = Lent::new(64);
    for b in 0..=255 {
        for words in 0..=12 {
            let port = answered(&mut lent, words, |words| port::type_from_byte(b, words));
            let (by, due) = type_words(b);
            tally.answer_by(by, "type_from_byte", &[b], port, expected(due, words));
        }
        let port = port::flags_from_byte(b);
        let rust = DssFlags::from_byte(b).to_byte();
        tally.same("flags_from_byte", &[b], port, rust);
    }
}

/// The type of a byte, and who says so.
pub fn type_words(b: u8) -> (By, Words) {
    let given = DssType::from_byte(b);
    let words = match &given {
        Ok(dss_type) => done(&[dss_type.to_byte() as u64]),
        _ if five::refused(&given) => done(&[five::NO_REPLY as u64]),
        Err(error) => of_error(error, 0),
    };
    (five::by(&given), words)
}
