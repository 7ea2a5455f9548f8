//! The Rust's reader, call by call. It gives no positions: what remains shows them, also after it stopped.
use super::walk::{walk, Walked};
use super::SHORT;
use crate::answers::{done, expected, of_error, refused, Answer, Words};
use crate::rows::frame_words;
use crate::salvage;
use crate::salvage::model::{self, Refusal, Rules};
use crate::stops::unless_stopped;
use crate::{five, shown, By, Tally};
use db2_proto::dss::{DssFrame, DssReader};

/// What a frame's reading comes to, and who says so.
pub struct Read {
    pub came: Came,
    pub by: By,
}

#[derive(PartialEq, Debug)]
pub enum Came {
    Frame {
        /// Length, the format byte, correlation.
        head: [u64; 3],
        payload: Vec<u8>,
        end: usize,
        segments: u64,
    },
    /// Every refusal but 9.
    Refused(Words),
}

/// Length, the format byte, correlation.
pub fn head_of(frame: &DssFrame) -> [u64; 3] {
    let head = &frame.header;
    let format = head.dss_type.to_byte() | head.flags.to_byte();
    [
        head.length as u64,
        format as u64,
        head.correlation_id as u64,
    ]
}

impl Read {
    /// What measuring comes to at a position.
    pub fn measured(&self, at: usize, words: usize) -> Answer {
        match &self.came {
            Came::Refused(answer) => expected(*answer, words),
            Came::Frame {
                head,
                payload,
                end,
                segments,
            } => {
                let mut answer = frame_words(*end, *head, payload.len(), *segments);
                // W-201: its first byte.
                answer[7] = at as u64;
                expected(answer, words)
            }
        }
    }

    /// What the call comes to from a position on in a room of so many bytes: 9 comes last.
    pub fn answer(&self, at: usize, room: usize, words: usize) -> Answer {
        match &self.came {
            Came::Refused(_) => self.measured(at, words),
            Came::Frame { payload, .. } if room < payload.len() => {
                expected(refused(9, at as u64, &[payload.len() as u64, 0]), words)
            }
            Came::Frame { payload, .. } => self.measured(at, words).laying(payload),
        }
    }

    /// The payload's length, 0 without one.
    pub fn payload_len(&self) -> usize {
        match &self.came {
            Came::Frame { payload, .. } => payload.len(),
            Came::Refused(_) => 0,
        }
    }

    /// A refusal, by the Rust or the documents.
    pub fn refused(answer: Words) -> Read {
        Read {
            came: Came::Refused(answer),
            by: By::Rust,
        }
    }

    /// The frame at a position of a run by salvage's rules, which the Rust doesn't have: the model's.
    pub fn salvaged(run: &[u8], at: usize) -> Read {
        let came = match model::next_frame(run, at, Rules::Salvage) {
            Ok((frame, end)) => of_model(frame, end),
            Err(refusal) => Came::Refused(of_refusal(&refusal, 0)),
        };
        let by = By::Model;
        Read { came, by }
    }
}

/// A frame of the model's, which ends at a place.
fn of_model(frame: model::Frame, end: usize) -> Came {
    Came::Frame {
        head: salvage::head_words(&frame.head),
        payload: frame.payload,
        end,
        segments: frame.segments as u64,
    }
}

/// A refusal of the model's, of bytes that are a run's from a place on.
fn of_refusal(refusal: &Refusal, from: usize) -> Words {
    let values: &[u64] = match refusal.is_not_whole() {
        true => &[],
        false => &[refusal.value as u64],
    };
    refused(refusal.number as u64, (from + refusal.place) as u64, values)
}

// ---- one frame

/// Where a reader of these bytes stands.
pub fn position(reader: &DssReader, bytes: &[u8]) -> usize {
    bytes.len() - reader.remaining()
}

/// The refusal of a frame at a place that isn't whole, the Rust's `None`: 1 at that place, or 16 at the length. Nothing of any
/// other frame.
fn not_whole(walked: &Walked, place: usize) -> Option<Words> {
    match walked {
        Walked::NotWhole => Some(refused(1, place as u64, &[])),
        Walked::Dead { behind } => Some(refused(16, (place + behind) as u64, &[])),
        _ => None,
    }
}

/// The end of the frame at a place: the Rust's, or why there is none by the walk. Both must say whether there is one.
pub fn end(tally: &mut Tally, run: &[u8], at: usize) -> Words {
    let rest = &run[at..];
    let (given, none) = (
        DssReader::first_complete_frame_len(rest),
        not_whole(&walk(rest), at),
    );
    let what = "the walk and complete_frame_len";
    tally.own(what, shown(rest), none.is_none(), given.is_some());
    match given {
        Some(end) => done(&[(at + end) as u64]),
        None => none.unwrap_or(refused(0, at as u64, &[])),
    }
}

/// The next frame of a reader of these bytes, which are a run's from a place on: the Rust's, with the segments of the walk. Both
/// must say that there is a frame, that it isn't whole, that a head is refused, or that the Rust stops and where. A frame that
/// isn't whole leaves the Rust's reader where it was, also one that never will be. Where the Rust refuses a type 5, it is the
/// model's, and the reader is one of the bytes that the model leaves.
pub fn next(tally: &mut Tally, reader: &mut DssReader, bytes: &[u8], from: usize) -> Read {
    let at = position(reader, bytes);
    let walked = walk(&bytes[at..]);
    let given = unless_stopped(|| reader.next_frame());
    if given.as_ref().is_some_and(five::refused) {
        return by_model(tally, reader, bytes, from, at, walked);
    }
    let stands = position(reader, bytes);
    let place = (from + stands) as u64;
    let rust = match &given {
        Some(Ok(None)) => "not whole",
        Some(Err(_)) => "a head refused",
        Some(Ok(Some(_))) => "a frame",
        None => "stopped",
    };
    let what = "the walk and next_frame";
    if let Some(refusal) = not_whole(&walked, from + at) {
        tally.own(what, shown(bytes), ("not whole", at), (rust, stands));
        model_agrees(tally, bytes, from, at, None);
        return Read::refused(refusal);
    }
    let (paper, came) = match (walked, given) {
        (Walked::BadHead, Some(Err(error))) => {
            ("a head refused", Came::Refused(of_error(&error, place)))
        }
        (Walked::TooShort { length, behind }, _) if at + behind == stands => {
            ("stopped", Came::Refused(refused(7, place, &[length])))
        }
        (Walked::Frame { segments }, Some(Ok(Some(frame)))) => {
            let head = head_of(&frame);
            let payload = frame.payload;
            let end = from + stands;
            let came = Came::Frame {
                head,
                payload,
                end,
                segments,
            };
            ("a frame", came)
        }
        (_, _) => ("another", Came::Refused(refused(0, place, &[]))),
    };
    tally.own(what, shown(bytes), paper, rust);
    model_agrees(tally, bytes, from, at, Some(&came));
    let by = By::Rust;
    Read { came, by }
}

/// What the model reads at a place of these bytes, as the walk says it, where it then stands, and in full; nothing where the frame
/// isn't whole.
fn modelled(bytes: &[u8], from: usize, at: usize) -> Option<(Walked, usize, Came)> {
    Some(match model::next_frame(bytes, at, Rules::Reader) {
        Ok((frame, end)) => {
            let segments = frame.segments as u64;
            (Walked::Frame { segments }, end, of_model(frame, from + end))
        }
        Err(refusal) if refusal.is_not_whole() => return None,
        Err(refusal) => {
            let place = refusal.place;
            let walks = match refusal.number {
                7 => Walked::TooShort {
                    length: refusal.value as u64,
                    behind: place - at,
                },
                _ => Walked::BadHead,
            };
            (walks, place, Came::Refused(of_refusal(&refusal, from)))
        }
    })
}

/// The frame at a place of these bytes by the model, where the Rust refuses a type 5: it must agree with the walk.
fn by_model(
    tally: &mut Tally,
    reader: &mut DssReader,
    bytes: &[u8],
    from: usize,
    at: usize,
    walked: Walked,
) -> Read {
    let given = modelled(bytes, from, at);
    let (walks, stands, came) = given.expect("the Rust says that it is whole");
    tally.own("the walk and the model", shown(bytes), walked, walks);
    *reader = DssReader::new(bytes[stands..].to_vec());
    let by = By::Five;
    Read { came, by }
}

/// Of one run in four, where it is short: the model, which the port is held to where the Rust refuses a type 5, reads as the Rust
/// does where that doesn't.
fn model_agrees(tally: &mut Tally, bytes: &[u8], from: usize, at: usize, came: Option<&Came>) {
    if bytes.len() <= SHORT && bytes.len() % 4 == 0 {
        let given = modelled(bytes, from, at);
        let model = given.as_ref().map(|(_, _, came)| came);
        tally.own("the model and next_frame", shown(bytes), model, came);
    }
}
