//! All frames at once: the Rust's `read_all_frames`. Where a frame stood, how many segments it has and which length stopped the Rust,
//! which it doesn't say, comes from reading the same frame by frame: the Rust's reader stands before it, and behind it.
use super::rust::{head_of, next, position, Came, Read};
use crate::answers::{of_error, refused, Words};
use crate::rows::{frame_words, record, Listed, Record, RECORD_WORDS};
use crate::stops::unless_stopped;
use crate::{five, By, Tally};
use db2_proto::dss::{DssFrame, DssReader};

/// What reading frame by frame came to: each frame, and the refusal that ended it, with the position that it was read at.
#[derive(Default)]
pub struct ByFrame {
    records: Vec<Record>,
    payloads: Vec<u8>,
    last: Words,
    at: usize,
}

impl ByFrame {
    /// Takes what was read at a position; whether reading goes on.
    pub fn takes(&mut self, at: usize, read: Read) -> bool {
        self.at = at;
        match read.came {
            Came::Frame {
                head,
                payload,
                end,
                segments,
            } => {
                let place = self.payloads.len();
                let words = frame_words(place, head, payload.len(), segments);
                self.records.push(record(words, at, end));
                self.payloads.extend(payload);
                true
            }
            Came::Refused(last) => {
                self.last = last;
                false
            }
        }
    }
}

/// Reads on to the end, from what was read first: the bytes are a run's from a place on.
pub fn to_end(
    tally: &mut Tally,
    reader: &mut DssReader,
    bytes: &[u8],
    from: usize,
    mut read: Read,
) -> ByFrame {
    let mut by_frame = ByFrame::default();
    let mut at = from;
    while by_frame.takes(at, read) {
        at = from + position(reader, bytes);
        read = next(tally, reader, bytes, from);
    }
    by_frame
}

/// All frames of a run from a place on, by the Rust's `read_all_frames`, and who says so: where that refuses a type 5, it is what
/// reading frame by frame came to.
pub fn listed(run: &[u8], from: usize, by_frame: &ByFrame) -> (By, Listed<RECORD_WORDS>) {
    let bytes = &run[from..];
    let mut reader = DssReader::new(bytes.to_vec());
    let given = unless_stopped(|| reader.read_all_frames());
    let place = (from + position(&reader, bytes)) as u64;
    if given.as_ref().is_some_and(five::refused) {
        return (By::Five, one_by_one(by_frame));
    }
    let listed = match given {
        Some(Ok(frames)) => of_frames(&frames, place, by_frame),
        Some(Err(error)) => Listed::Refused(of_error(&error, place)),
        None => Listed::Refused(refused(7, place, &by_frame.last[2..3])),
    };
    (By::Rust, listed)
}

/// "`read_all_frames` reads until 1", or 16; "2, 3, 7 anywhere in the run" refuse it.
fn one_by_one(by_frame: &ByFrame) -> Listed<RECORD_WORDS> {
    match by_frame.last[0] {
        1 | 16 => of_records(by_frame, by_frame.at as u64),
        _ => Listed::Refused(by_frame.last),
    }
}

fn of_frames(frames: &[DssFrame], position: u64, by_frame: &ByFrame) -> Listed<RECORD_WORDS> {
    let of = |frame: &DssFrame| (head_of(frame), frame.payload.len() as u64);
    let heads: Vec<_> = frames.iter().map(of).collect();
    let record = |words: &Record| ([words[2], words[3], words[4]], words[5]);
    let records: Vec<_> = by_frame.records.iter().map(record).collect();
    let payloads: Vec<_> = frames.iter().map(|frame| &frame.payload[..]).collect();
    assert!(
        heads == records && payloads.concat() == by_frame.payloads,
        "the Rust reads other frames"
    );
    of_records(by_frame, position)
}

fn of_records(by_frame: &ByFrame, position: u64) -> Listed<RECORD_WORDS> {
    let records = by_frame.records.clone();
    let payloads = by_frame.payloads.clone();
    let (count, bytes) = (records.len() as u64, payloads.len() as u64);
    Listed::All {
        words: [0, position, count, bytes, 0, 0, 0, 0],
        records,
        payloads,
    }
}
