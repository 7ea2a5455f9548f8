//! `DssReader::measure` and `DssReader::take_into`, which lattrugone adds: by the reader's rules held to the Rust's own reading, by
//! salvage's to the model, frame by frame until one is refused or isn't whole.
use super::Names;
use crate::answers::{Bytes, Words};
use crate::reader::rust::{next, Came, Read};
use crate::shown;
use lattrugone::dss::{DssReader, FrameMeasure, Rules};
use lattrugone::ProtoError;
use std::ops::Range;

/// A frame: length, the format byte and correlation of its head, its payload's length, its segments, where it stood.
type Told = ([u64; 3], usize, usize, Range<usize>);

/// What a call came to, none where the frame isn't whole, an error as it is shown; and where the reader then stands.
type Seen = (Result<Option<Told>, String>, usize);

fn seen(given: Result<Option<FrameMeasure>, ProtoError>, position: usize) -> Seen {
    let told = |m: FrameMeasure| {
        let format = m.header.dss_type.to_byte() | m.header.flags.to_byte();
        let (length, correlation) = (m.header.length, m.header.correlation_id);
        let head = [length as u64, format as u64, correlation as u64];
        (head, m.payload_len, m.segments, m.span)
    };
    let given = given.map(|frame| frame.map(told));
    (given.map_err(|error| format!("{error:?}")), position)
}

/// What is due of a frame at a position. Measuring leaves the reader there.
fn due(read: &Read, at: usize) -> Result<Option<Told>, String> {
    match &read.came {
        Came::Frame {
            head,
            payload,
            end,
            segments,
        } => Ok(Some((*head, payload.len(), *segments as usize, at..*end))),
        Came::Refused(words) => shown_error(words),
    }
}

fn shown_error(words: &Words) -> Result<Option<Told>, String> {
    let case = match words[0] {
        1 | 16 => return Ok(None),
        2 => "InvalidMagic",
        3 => "InvalidDssType",
        _ => "LengthTooShort",
    };
    Err(format!("{case}({})", words[2]))
}

/// Where taking leaves the reader.
fn left(read: &Read, at: usize) -> usize {
    match &read.came {
        Came::Frame { end, .. } => *end,
        Came::Refused([1 | 16, ..]) => at,
        Came::Refused(words) => words[1] as usize,
    }
}

/// A byte that a room is filled with, and how many stand behind what is taken.
const FILLED: u8 = 0xEE;
const BEHIND: usize = 3;

pub fn hold(names: &mut Names, run: &[u8]) {
    let mut rust = db2_proto::dss::DssReader::new(run.to_vec());
    let by_rust = |names: &mut Names, _| next(names.tally, &mut rust, run, 0);
    frames(names, run, Rules::Reader, by_rust);
    let by_model = |_: &mut Names, at| Read::salvaged(run, at);
    frames(names, run, Rules::Salvage, by_model);
}

fn frames(
    names: &mut Names,
    run: &[u8],
    rules: Rules,
    mut read: impl FnMut(&mut Names, usize) -> Read,
) {
    let mut reader = DssReader::new(run.to_vec());
    loop {
        let at = reader.position();
        let read = read(names, at);
        let port = seen(reader.measure(rules), reader.position());
        let due_here = (due(&read, at), at);
        names
            .tally
            .held(read.by, "DssReader::measure", shown(run), port, due_here);
        let Came::Frame { payload, .. } = &read.came else {
            let mut room = [FILLED; BEHIND];
            let given = reader.take_into(rules, &mut room);
            let port = (seen(given, reader.position()), room);
            let due = ((due(&read, at), left(&read, at)), [FILLED; BEHIND]);
            return names
                .tally
                .held(read.by, "DssReader::take_into", shown(run), port, due);
        };
        let need = payload.len();
        if need > 0 {
            let mut room = vec![FILLED; need - 1];
            let given = reader.take_into(rules, &mut room);
            let kept = room.iter().all(|b| *b == FILLED);
            let port = (seen(given, reader.position()), kept);
            let error = format!("NoRoom {{ needed: {need} }}");
            names.document(
                "DssReader::take_into",
                shown(run),
                port,
                ((Err(error), at), true),
            );
        }
        let mut room = vec![FILLED; need + BEHIND];
        let given = reader.take_into(rules, &mut room);
        let port = (seen(given, reader.position()), Bytes(room));
        let laid = [&payload[..], &[FILLED; BEHIND]].concat();
        let due = ((due(&read, at), left(&read, at)), Bytes(laid));
        names
            .tally
            .held(read.by, "DssReader::take_into", shown(run), port, due);
    }
}
