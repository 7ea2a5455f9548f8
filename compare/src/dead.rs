//! Continuation lengths of 0 and 1, answer 16, document 02's W-203: how often each call came to one, and that each came to one of
//! every kind.
use crate::reader::walk::{walk, Walked};
use std::collections::BTreeMap;

/// A whole segment before a continuation takes so many bytes.
const SEGMENT: usize = 32_767;

/// How much of such a length is there, and which it is.
#[derive(Clone, Copy, PartialEq, Eq, PartialOrd, Ord, Debug)]
enum Length {
    /// Its first byte ends the run: 1 is due, as it can still be another.
    OneByte,
    /// It ends the run.
    Last(u8),
    /// Bytes stand behind it.
    Inside(u8),
}

/// A frame with such a length.
#[derive(Clone, Copy, PartialEq, Eq, PartialOrd, Ord, Debug)]
struct Kind {
    /// Whether the frame stands at the run's first byte.
    first: bool,
    /// Which continuation has the length, from 1 on.
    continuation: usize,
    length: Length,
    /// Whether the frame's magic is D0: 2 comes behind 16.
    magic: bool,
}

/// The length in a frame that starts some bytes, and its place, where there is one.
fn length(bytes: &[u8]) -> Option<(Length, usize)> {
    if bytes.len() <= SEGMENT || bytes[..2] != [0xFF, 0xFF] {
        return None;
    }
    if let Walked::Dead { behind } = walk(bytes) {
        let raw = bytes[behind + 1];
        let last = behind + 2 == bytes.len();
        let length = if last { Length::Last } else { Length::Inside };
        return Some((length(raw), behind));
    }
    // With one more byte the length is there.
    if bytes.len() % SEGMENT != 1 {
        return None;
    }
    match walk(&[bytes, &[0]].concat()) {
        Walked::Dead { behind } => Some((Length::OneByte, behind)),
        _ => None,
    }
}

/// The calls that must come to each kind, and whether they come to frames behind the first one.
const CALLS: [(&str, bool); 11] = [
    ("first_complete_frame_len", false),
    ("has_complete_frame", true),
    ("complete_frame_len", true),
    ("next_frame", true),
    ("measure_frame", true),
    ("take_frame", true),
    ("read_all_frames", true),
    ("salvage", true),
    ("DssReader::next_frame", true),
    ("DssReader::read_all_frames", true),
    ("change_request", false),
];

/// The kinds that each must come to: the first continuation and the third.
fn kinds(behind: bool) -> Vec<Kind> {
    use Length::{Inside, Last, OneByte};
    let mut kinds = Vec::new();
    for first in [true, false] {
        for continuation in [1, 3] {
            for length in [OneByte, Last(0), Last(1), Inside(0), Inside(1)] {
                for magic in [true, false] {
                    kinds.push(Kind {
                        first,
                        continuation,
                        length,
                        magic,
                    });
                }
            }
        }
    }
    kinds.retain(|kind| kind.first || behind);
    kinds
}

/// How often each call came to each kind.
#[derive(Default)]
pub struct Met(BTreeMap<(&'static str, Kind), u64>);

impl Met {
    /// Notes that a call came to the frame at a place of a run, where one with such a length is there.
    pub fn note(&mut self, call: &'static str, run: &[u8], at: usize) {
        let bytes = run.get(at..).unwrap_or_default();
        if let Some((length, behind)) = length(bytes) {
            let kind = Kind {
                first: at == 0,
                continuation: behind / SEGMENT,
                length,
                magic: bytes[2] == 0xD0,
            };
            *self.0.entry((call, kind)).or_default() += 1;
        }
    }

    /// How often a call came to a whole length of 0 or 1.
    fn times(&self, call: &str) -> u64 {
        let of_call = self.0.iter().filter(|((c, _), _)| *c == call);
        of_call
            .filter(|((_, kind), _)| kind.length != Length::OneByte)
            .map(|(_, times)| times)
            .sum()
    }

    /// Each call came to each kind, or the run fails.
    pub fn all(&self) {
        let missing: Vec<_> = CALLS
            .iter()
            .flat_map(|(call, behind)| kinds(*behind).into_iter().map(|kind| (*call, kind)))
            .filter(|met| !self.0.contains_key(met))
            .collect();
        if !missing.is_empty() {
            println!("compare: lengths of 0 and 1 that weren't met: {missing:?}");
            std::process::exit(1);
        }
        let times = CALLS.map(|(call, _)| format!("{call} {}", self.times(call)));
        println!(
            "compare: came to a continuation length of 0 or 1: {}",
            times.join(", ")
        );
    }
}
