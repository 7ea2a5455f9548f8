//! What a frame takes, of its payload's length alone (document 02, W-206). The Rust says it of payloads that it is given; of
//! those that no memory holds, up to 2^64 - 1 bytes, only the document does.
use crate::port;
use crate::{By, Chance, Tally};

/// "6 plus the payload, plus 2 for each 32,765 bytes or part of them above 32,761"; document 01: "a need above 2^64 - 1 is given
/// as that". In 128 bits, so that nothing wraps.
pub fn due(payload_len: u64) -> u64 {
    let payload_len = payload_len as u128;
    let above = payload_len.saturating_sub(32_761);
    let size = 6 + payload_len + 2 * above.div_ceil(32_765);
    size.min(u64::MAX as u128) as u64
}

/// The longest payload whose frame takes no more than 2^64 - 1 bytes: it takes just so many.
pub const LONGEST: u64 = 18_445_618_139_441_922_009;

const AROUND: u64 = 3;

/// The lengths from three below an edge to three above it, as far as there are such.
fn around(edge: u64) -> impl Iterator<Item = u64> {
    edge.saturating_sub(AROUND)..=edge.saturating_add(AROUND)
}

/// A length with which so many continuations are full.
fn full(continuations: u64) -> u64 {
    32_761 + 32_765 * continuations
}

/// The most continuations that can be full.
const MOST_FULL: u64 = (u64::MAX - 32_761) / 32_765;

/// A length that the Rust was given: the port to the Rust, and so what is due here.
pub fn hold_to_rust(tally: &mut Tally, len: usize, rust: usize) {
    let input = len.to_be_bytes();
    tally.same("frame_size", &input, port::frame_size(len), rust);
    tally.own("frame_size", &input, due(len as u64), rust as u64);
}

fn hold(tally: &mut Tally, len: u64) {
    let (what, input) = ("frame_size", len.to_be_bytes());
    let port = port::frame_size(len as usize) as u64;
    tally.held(By::Document, what, &input, port, due(len));
}

/// Around each power of 2, around 2^64 - 1 of payload and of size, and around random numbers of full continuations of every
/// magnitude.
pub fn compare(tally: &mut Tally, chance: &mut Chance, cases: u64) {
    assert!(due(LONGEST - 1) == u64::MAX - 1 && due(LONGEST) == u64::MAX);
    let powers = (0..64).map(|power| 1 << power);
    for edge in powers.chain([LONGEST, full(MOST_FULL), u64::MAX]) {
        around(edge).for_each(|len| hold(tally, len));
    }
    for _ in 0..cases {
        let continuations = (chance.next() >> chance.below(64)) % (MOST_FULL + 1);
        around(full(continuations)).for_each(|len| hold(tally, len));
    }
}
