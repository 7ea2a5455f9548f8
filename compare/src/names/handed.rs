//! db2-proto with its modules dss and ddm handed on from lattrugone, by the lines that bindings/rust/README.md has for that: the
//! crate db2-handed, which compare/oracle makes. Callers that are written for db2-proto and that README says compile unchanged
//! are compiled over both, and come to the same.
use super::objects::loses_bits;
use super::{five, Names};
use crate::five::NO_REPLY;
use crate::reader::long::each_dead;
use crate::reader::{runs, PAPER};
use crate::stops::unless_stopped;
use crate::{shown, By, Chance};

macro_rules! callers {
    ($name:ident = $proto:ident) => {
        mod $name {
            use $proto as db2_proto;
            include!("handed/callers.rs");
        }
    };
}

callers!(of_rust = db2_proto);
callers!(of_handed = db2_handed);

pub fn compare(names: &mut Names, chance: &mut Chance, cases: u64) {
    for first in PAPER {
        for second in PAPER {
            hold(names, &[first, second].concat());
        }
    }
    each_dead(chance, |run, _| hold(names, run));
    for case in 0..cases {
        let mut run = runs::random(chance, usize::MAX);
        if chance.below(2) == 0 {
            run.damage(chance);
        }
        hold(names, &run.bytes);
        let (id, number) = (case as u16, chance.next() as u32);
        let written = (
            of_handed::request(id, number, &run.bytes),
            of_rust::request(id, number, &run.bytes),
        );
        names.tally.same("a request", &[], written.0, written.1);
        hold(names, &of_rust::request(id, number, &run.bytes));
    }
}

/// The payloads of the frames that the Rust gives before it ends, refuses or stops.
fn payloads(run: &[u8]) -> Vec<Vec<u8>> {
    let mut reader = db2_proto::dss::DssReader::new(run.to_vec());
    let mut all = Vec::new();
    while let Some(Ok(Some(frame))) = unless_stopped(|| reader.next_frame()) {
        all.push(frame.payload);
    }
    all
}

/// What a caller is told of frames of which one has type 5, where nothing is refused: the Rust's objects of the model's frames.
fn told_by_model(names: &mut Names, run: &[u8]) {
    let (Ok(frames), _) = five::all(run, 0) else {
        return;
    };
    let mut objects = Vec::new();
    for ((_, kind, _, _), payload) in frames {
        if loses_bits(&payload.0).is_some() {
            return;
        }
        // A caller leaves communications out.
        if kind != 4 {
            match unless_stopped(|| db2_proto::ddm::parse_ddm_objects(&payload.0)) {
                Some(Ok(more)) => objects.extend(more),
                _ => return,
            }
        }
    }
    let (port, due) = (of_handed::told(run), format!("{objects:?}"));
    names
        .tally
        .held(By::Five, "a caller", shown(run), port, due);
}

/// Keeps out where the Rust stops or loses bits.
fn hold(names: &mut Names, run: &[u8]) {
    if payloads(run).iter().any(|p| loses_bits(p).is_some()) {
        return;
    }
    let refuses_five = || of_rust::told(run) == format!("type {NO_REPLY}");
    if unless_stopped(refuses_five) == Some(true) {
        return told_by_model(names, run);
    }
    let told = (of_handed::told(run), unless_stopped(|| of_rust::told(run)));
    let found = (
        format!("{:?}", of_handed::found(run)),
        unless_stopped(|| format!("{:?}", of_rust::found(run))),
    );
    if let (Some(told_by_rust), Some(found_by_rust)) = (told.1, found.1) {
        names
            .tally
            .same("a caller", shown(run), told.0, told_by_rust);
        names
            .tally
            .same("a caller", shown(run), found.0, found_by_rust);
    }
}
