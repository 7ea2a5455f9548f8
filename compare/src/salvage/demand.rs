//! Demand 3 directly: frames that stand by themselves, of any size, written by the port or by the Rust, some of them spoilt. The
//! salvage reading hands out "every other frame, in order and exactly as written, and one refusal at the first byte of each spoilt
//! frame, and nothing else". What is due is made from what was sent, and nothing is read for it.
use super::Held;
use crate::answers::{done, refused, Words, ANSWER_WORDS};
use crate::port::{self, Loan};
use crate::rows::{frame_words, record, Call, Listed};
use crate::writer::call;
use crate::{By, Chance, Tally};

/// The longest payloads of one to four segments, whose last one is full, and those around them.
const LONG: [usize; 11] = [
    32_760, 32_761, 32_762, 65_525, 65_526, 65_527, 98_290, 98_291, 98_292, 131_056, 131_057,
];

/// Once in so many frames one is long.
const TIMES: usize = 500;

/// A frame to be sent.
struct Sent {
    kind: u8,
    chained: bool,
    same_correlation: bool,
    correlation: u16,
    payload: Vec<u8>,
}

/// A frame that stands by itself: "when same correlation is clear, or it needs more than one segment, or its payload has at least 5
/// bytes and starts with an object built inline with code point above 0x0100".
fn sent(chance: &mut Chance, mut len: usize) -> Sent {
    let mut same_correlation = chance.below(2) == 0;
    let mut payload = chance.bytes(len);
    if same_correlation && len <= 32_761 {
        len = len.max(5);
        payload.resize(len, 0xC1);
        let object = 4 + chance.below(len - 3);
        let code_point = match chance.below(3) {
            0 => 0x0101,
            1 => 0xFFFF,
            _ => 0x0101 + chance.below(0xFEFF),
        };
        payload[..2].copy_from_slice(&(object as u16).to_be_bytes());
        payload[2..4].copy_from_slice(&(code_point as u16).to_be_bytes());
    } else if chance.below(2) == 0 {
        // Any bytes will do, also those that look like a continued object.
        same_correlation = len > 32_761 && same_correlation;
        let start = [0x80, 0x04, 0x24, 0x1B];
        let most = len.min(4);
        payload[..most].copy_from_slice(&start[..most]);
    }
    Sent {
        kind: 1 + chance.below(5) as u8,
        chained: chance.below(2) == 0,
        same_correlation,
        correlation: chance.next() as u16,
        payload,
    }
}

impl Sent {
    fn flags(&self) -> u8 {
        self.chained as u8 * 0x40 + self.same_correlation as u8 * 0x10
    }

    /// How many continuations it needs.
    fn continuations(&self) -> usize {
        self.payload.len().saturating_sub(32_761).div_ceil(32_765)
    }

    fn written_by_port(&self) -> Vec<u8> {
        let mut room = vec![0; port::frame_size(self.payload.len())];
        let (mut words, id, flags) = ([0; ANSWER_WORDS], self.correlation, self.flags());
        let loan = Loan {
            payload: &self.payload,
            room: &mut room,
            words: &mut words,
        };
        let number = port::write_dss_full(id, 0, self.kind, flags, loan);
        assert!(number == 0, "the port's writer refuses a frame");
        room
    }

    /// The Rust's frame; of a type 5 it is a request with that type.
    fn written_by_rust(&self) -> Vec<u8> {
        let (dss_type, flags) = (self.kind, self.flags());
        let call = call::Call::Full { dss_type, flags };
        let (frame, _) = call
            .rust_frame(self.correlation, &self.payload)
            .expect("a type");
        frame
    }

    /// The words that are due for it, with its payload's place in the room.
    fn words(&self, place: usize) -> Words {
        let continuations = self.continuations();
        let length = match continuations {
            0 => self.payload.len() + 6,
            _ => 32_767,
        };
        let format = self.kind + self.flags();
        let head = [length as u64, format as u64, self.correlation as u64];
        frame_words(place, head, self.payload.len(), 1 + continuations as u64)
    }

    /// "spoil the magic byte or the type so that the head is refused; change its flags, correlation and payload bytes too, but no
    /// length field": the refusal that is due where the frame starts at a place.
    fn spoil(&self, chance: &mut Chance, bytes: &mut [u8], place: usize) -> Words {
        let kept = bytes.to_vec();
        for byte in &mut bytes[2..] {
            if chance.below(3) == 0 {
                *byte = chance.byte();
            }
        }
        for segment in 0..=self.continuations() {
            let field = segment * 32_767;
            bytes[field..field + 2].copy_from_slice(&kept[field..field + 2]);
        }
        // "demand 3's spoilt type is outside 1 to 5"
        let low = [0, 6, 7, 8, 9, 10, 11, 12, 13, 14, 15][chance.below(11)];
        if chance.below(2) == 0 {
            bytes[3] = bytes[3] & 0xF0 | low;
            bytes[2] = 0xD0;
            return refused(3, place as u64, &[low as u64]);
        }
        bytes[2] = chance.byte();
        if bytes[2] == 0xD0 {
            bytes[2] = 0xD1;
        }
        refused(2, place as u64, &[bytes[2] as u64])
    }
}

/// A run of such frames, each with whether it is to be spoilt, and what is due of them.
fn hold(tally: &mut Tally, held: &mut Held, chance: &mut Chance, frames: &[(Sent, bool)]) {
    let (mut run, mut records, mut payloads) = (Vec::new(), Vec::new(), Vec::new());
    for (frame, spoilt) in frames {
        let mut bytes = match chance.below(2) {
            0 => frame.written_by_port(),
            _ => frame.written_by_rust(),
        };
        let from = run.len();
        let words = if *spoilt {
            frame.spoil(chance, &mut bytes, from)
        } else {
            let place = payloads.len();
            payloads.extend_from_slice(&frame.payload);
            frame.words(place)
        };
        run.extend(bytes);
        records.push(record(words, from, run.len()));
    }
    let (count, bytes) = (records.len() as u64, payloads.len() as u64);
    let due = Listed::All {
        words: done(&[count, bytes, run.len() as u64]),
        records,
        payloads,
    };
    let call = Call {
        name: "demand 3",
        by: By::Document,
        at: 0,
        words: ANSWER_WORDS,
        make: |_, loan| port::salvage(loan),
    };
    held.hold_to(tally, &run, call, &due);
}

/// Each long size, good and spoilt: alone, before a short frame, and before another long one; and those whose last segment is full,
/// one behind the other.
pub fn sizes(tally: &mut Tally, held: &mut Held, chance: &mut Chance) {
    for spoilt in [false, true] {
        for len in LONG {
            for lens in [&[len][..], &[len, 1, 5], &[len, 65_526, 5]] {
                let frames: Vec<_> = lens
                    .iter()
                    .enumerate()
                    .map(|(i, len)| (sent(chance, *len), spoilt && i == 0))
                    .collect();
                hold(tally, held, chance, &frames);
            }
        }
        let full = [32_761, 65_526, 98_291, 131_056];
        let full = full.map(|len| (sent(chance, len), spoilt));
        hold(tally, held, chance, &full);
    }
}

/// A random list of such frames.
pub fn random(tally: &mut Tally, held: &mut Held, chance: &mut Chance) {
    let mut frames = Vec::new();
    for _ in 0..chance.below(9) {
        let len = match chance.below(TIMES) {
            0 => LONG[chance.below(LONG.len())],
            _ => chance.below(24),
        };
        let frame = sent(chance, len);
        frames.push((frame, chance.below(3) == 0));
    }
    hold(tally, held, chance, &frames);
}
