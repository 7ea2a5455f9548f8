//! What lattrugone adds to db2-proto's names: its `salvage` and where its entries stood held to the model, `next_frame_counted`,
//! `dead_at`, `position` and `span` to the walk and to what remains, frames of type 5 to the Rust's requests, and measuring and taking
//! (measured.rs).
use super::seen::Head;
use super::{measured, Names};
use crate::answers::Bytes;
use crate::reader::long::each_dead;
use crate::reader::walk::{walk, Walked};
use crate::reader::{runs, PAPER};
use crate::salvage::model::{self, Entry, Stood};
use crate::writer::around_edges;
use crate::{five, shown, By, Chance};
use lattrugone::dss::{self, DssReader, DssType, DssWriter};
use std::ops::Range;

/// Once in so many random runs there are long frames.
const LONG: usize = 200;

pub fn compare(names: &mut Names, chance: &mut Chance, cases: u64) {
    for first in PAPER {
        for second in PAPER {
            let run = [first, second].concat();
            for cut in 0..=run.len() {
                hold(names, &run[..cut]);
            }
        }
    }
    each_dead(chance, |run, _| hold(names, run));
    no_reply(names, chance);
    for _ in 0..cases {
        let mut run = runs::random(chance, LONG);
        for _ in 0..chance.below(4) {
            run.damage(chance);
        }
        hold(names, &run.bytes);
    }
}

/// Each of the writer's calls that can lay down a type 5, from one writer, and how the type is shown and told.
fn no_reply(names: &mut Names, chance: &mut Chance) {
    for len in (0..=40).chain(around_edges()) {
        let payload = chance.bytes(len);
        let (id, chained, same) = (len as u16, len % 2 == 0, len % 3 == 0);
        let mut port = DssWriter::new(id);
        let mut rust = db2_proto::dss::DssWriter::new(id);
        port.write_request_no_reply(&payload, chained);
        rust.write_request(&payload, chained);
        let mut due = rust.finish();
        five::made(&mut due);
        for same in [false, same] {
            rust.write_dss_full(db2_proto::dss::DssType::Request, chained, same, &payload);
            let mut frame = rust.finish();
            five::made(&mut frame);
            due.extend(frame);
        }
        port.write_dss(DssType::NoReply, chained, &payload);
        port.write_dss_full(DssType::NoReply, chained, same, &payload);
        let (port, due) = (Bytes(port.finish()), Bytes(due));
        let name = "DssWriter::write_request_no_reply";
        names.tally.held(By::Five, name, &[], port, due);
    }
    let dss_type = DssType::NoReply;
    let port = (
        dss_type.to_byte(),
        format!("{dss_type:?}"),
        dss_type.clone() == dss_type,
    );
    let due = (five::NO_REPLY, "NoReply".to_string(), true);
    names
        .tally
        .held(By::Five, "DssType::NoReply", &[], port, due);
}

fn hold(names: &mut Names, run: &[u8]) {
    measured::hold(names, run);
    let (port, due) = (by_port(run), by_model(run));
    names
        .tally
        .held(By::Model, "dss::salvage", shown(run), port, due);
    let mut reader = DssReader::new(run.to_vec());
    loop {
        let at = reader.position();
        let due = walk(&run[at..]);
        let dead = match due {
            Walked::Dead { behind } => Some(at + behind),
            _ => None,
        };
        names.document("DssReader::dead_at", shown(run), reader.dead_at(), dead);
        let read = reader.next_frame_counted();
        let none = matches!(read, Ok(None));
        let Ok(Some((frame, segments))) = read else {
            let (place, stands) = (reader.position(), run.len() - reader.remaining());
            // Not whole, yet or ever: none, and it stays. Else an error, of which the walk says where 7 stands.
            let due = match due {
                Walked::NotWhole | Walked::Dead { .. } => Some((true, at)),
                Walked::TooShort { behind, .. } => Some((false, at + behind)),
                Walked::BadHead => Some((false, stands)),
                Walked::Frame { .. } => None,
            };
            return names.document("DssReader::position", shown(run), Some((none, place)), due);
        };
        let port = Walked::Frame {
            segments: segments as u64,
        };
        names.document("DssReader::next_frame_counted", shown(run), port, due);
        // It stood between the two positions.
        let stood = at..run.len() - reader.remaining();
        names.document("DssFrame::span", shown(run), frame.span(), stood);
    }
}

/// An entry: where it stood; a frame with its segments, or a place and an error.
#[derive(PartialEq, Debug)]
enum Found {
    Frame(Range<usize>, Head, Bytes, usize),
    Refused(Range<usize>, usize, String),
}

/// The entries and the tail's place.
type Salvaged = (Vec<Found>, usize);

fn by_port(run: &[u8]) -> Salvaged {
    let found = |entry: dss::Entry| match entry {
        dss::Entry::Frame { frame, segments } => {
            let stood = frame.span();
            let (head, flags) = (&frame.header, frame.header.flags);
            let flags = [
                flags.chained,
                flags.continue_on_error,
                flags.same_correlation,
            ];
            let dss_type = head.dss_type.to_byte();
            let head = (head.length, dss_type, flags, head.correlation_id);
            Found::Frame(stood, head, Bytes(frame.payload), segments)
        }
        ref refused @ dss::Entry::Refused {
            place, ref error, ..
        } => Found::Refused(refused.span(), place, format!("{error:?}")),
    };
    let salvage = dss::salvage(run);
    (
        salvage.entries.into_iter().map(found).collect(),
        salvage.tail,
    )
}

fn by_model(run: &[u8]) -> Salvaged {
    let found = |Stood { from, end, entry }| match entry {
        Entry::Frame(frame) => {
            let head = frame.head;
            let flags = [head.chained, head.continue_on_error, head.same_correlation];
            let head = (head.length, head.kind, flags, head.correlation);
            Found::Frame(from..end, head, Bytes(frame.payload), frame.segments)
        }
        Entry::Refused(refusal) => {
            let case = match refusal.number {
                2 => "InvalidMagic",
                3 => "InvalidDssType",
                _ => "LengthTooShort",
            };
            let error = format!("{case}({})", refusal.value);
            Found::Refused(from..end, refusal.place, error)
        }
    };
    let salvage = model::salvage(run);
    (
        salvage.entries.into_iter().map(found).collect(),
        salvage.tail,
    )
}
