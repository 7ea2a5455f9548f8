//! Module 2 of document 01: the writer. The port's functions against the Rust's DssWriter and its two builders.
mod both;
pub mod call;
mod case;
pub mod record;
mod sizes;

use crate::answers::ANSWER_WORDS;
use crate::port;
use crate::{Chance, Tally};
use both::one_behind_the_other;
use call::Call::{Dss, Full};
use call::{and_no_type, every_call, every_thin, random_call};
use case::{anywhere, Case, Held};
use db2_proto::dss::DssWriter;

/// The longest payloads of one to five segments; three below each are tried, and three above.
const EDGES: [usize; 5] = [32_761, 65_526, 98_291, 131_056, 163_821];
const AROUND: usize = 3;
pub const MOST: usize = EDGES[4] + AROUND;

const CORRELATIONS: [u16; 5] = [0, 1, 255, 256, 65535];

/// Fill marks and spare bytes are less than this, where they aren't meant to be beyond the room.
const SPARE: usize = 48;

/// The longest room.
const ROOM: usize = MOST + 4096;

pub fn compare(tally: &mut Tally, chance: &mut Chance, cases: u64) {
    let mut held = Held::new(chance);
    numbers(tally, &held.bytes);
    sizes::compare(tally, chance, cases);
    lengths(tally, &mut held, chance);
    bytes_as_numbers(tally, &mut held, chance);
    marks(tally, &mut held);
    few_words(tally, &mut held);
    for case in 0..cases {
        random(tally, &mut held, chance);
        if case % 64 == 0 {
            one_behind_the_other(tally, &mut held, chance);
        }
    }
}

/// The lengths around each edge.
pub fn around_edges() -> impl Iterator<Item = usize> {
    EDGES
        .into_iter()
        .flat_map(|edge| edge - AROUND..=edge + AROUND)
}

/// Every correlation's next one; what frames take, of every payload up to two edges and of those around each.
fn numbers(tally: &mut Tally, bytes: &[u8]) {
    for id in 0..=u16::MAX {
        let mut writer = DssWriter::new(id);
        let next = writer.next_correlation_id();
        assert!(writer.correlation_id() == next);
        let port = port::next_correlation_id(id);
        tally.same("next_correlation_id", &id.to_be_bytes(), port, next);
    }
    for len in (0..EDGES[1] + 64).chain(around_edges()) {
        let mut writer = DssWriter::new(7);
        writer.write_request(&bytes[..len], false);
        let rust = writer.data().len();
        sizes::hold_to_rust(tally, len, rust);
    }
}

/// Every call with each of the correlations, and with payloads of 0 to 300 bytes and around each edge: in a room that is short
/// by one, in one that is just enough, and in a longer one.
fn lengths(tally: &mut Tally, held: &mut Held, chance: &mut Chance) {
    for len in (0..=300).chain(around_edges()) {
        for id in CORRELATIONS {
            for call in every_call() {
                let longer = 1 + chance.below(SPARE) as isize;
                anywhere(chance, call, id, len).hold(tally, held, &[-1, 0, longer]);
            }
        }
    }
}

/// Every byte as a type with every byte as flags or as chained, and every byte as chained of the other calls.
fn bytes_as_numbers(tally: &mut Tally, held: &mut Held, chance: &mut Chance) {
    for number in 0..=u16::MAX {
        let [dss_type, flags] = number.to_be_bytes();
        let chained = flags;
        for call in [Full { dss_type, flags }, Dss { dss_type, chained }] {
            let len = chance.below(16);
            let spare = chance.below(3) as isize - 1;
            anywhere(chance, call, number, len).hold(tally, held, &[spare]);
        }
    }
    for chained in 0..=255 {
        for call in every_thin(chained) {
            anywhere(chance, call, 7, 5).hold(tally, held, &[-1, 0, 1]);
        }
    }
}

/// A fill mark at the room's end, beyond it, and as far beyond it as numbers go.
fn marks(tally: &mut Tally, held: &mut Held) {
    for call in and_no_type().filter(|call| !call.builds()) {
        for room in 0..=8 {
            let far = [1 << 32, 1 << 63, usize::MAX - 6, usize::MAX - 1, usize::MAX];
            for fill in (room..room + 4).chain(far) {
                for len in [0, 1, 7] {
                    let case = Case {
                        call,
                        id: 7,
                        fill,
                        from: room,
                        len,
                        words: ANSWER_WORDS,
                    };
                    let frame = case.frame(held);
                    case.hold_in(tally, held, &frame, room);
                }
            }
        }
    }
}

/// Fewer words than an answer has stay as they are, and of more only so many are laid down: done, and each refusal.
fn few_words(tally: &mut Tally, held: &mut Held) {
    for words in 0..=12 {
        for call in and_no_type() {
            let case = Case {
                call,
                id: 0x1234,
                fill: if call.builds() { 0 } else { 9 },
                from: 3,
                len: 5,
                words,
            };
            case.hold(tally, held, &[-1, 0, 1]);
            if !call.builds() {
                let frame = case.frame(held);
                case.hold_in(tally, held, &frame, ANSWER_WORDS);
            }
        }
    }
}

/// Mostly up to 300 bytes, and once in so many times around an edge.
pub fn random_length(chance: &mut Chance, times: usize) -> usize {
    match chance.below(times) {
        0 => EDGES[chance.below(5)] - AROUND + chance.below(2 * AROUND + 1),
        _ => chance.below(301),
    }
}

/// A random call, in a room around what it needs, or in a shorter one.
fn random(tally: &mut Tally, held: &mut Held, chance: &mut Chance) {
    let call = random_call(chance);
    let len = random_length(chance, 256);
    let id = chance.next() as u16;
    let mut case = anywhere(chance, call, id, len);
    case.words = 6 + chance.below(5);
    let spare = match chance.below(4) {
        0 => -(chance.below(len + SPARE) as isize),
        _ => chance.below(8) as isize - 3,
    };
    case.hold(tally, held, &[spare]);
}
