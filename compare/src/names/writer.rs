//! The writer: each call, and one writer through many.
use super::{port, rust, Names};
use crate::writer::call::Call::{BuildObject, BuildRequest};
use crate::writer::call::{every_call, Call};
use crate::writer::{around_edges, random_length, MOST};
use crate::Chance;

pub fn compare(names: &mut Names, chance: &mut Chance, cases: u64) {
    let bytes = chance.bytes(MOST);
    for id in 0..=u16::MAX {
        let (mut a, mut b) = (port::writer::Writer::new(id), rust::writer::Writer::new(id));
        names.same(&["DssWriter::new"], &id.to_be_bytes(), a.state(), b.state());
        let next = (a.next(), b.next());
        names.same(NEXT, &id.to_be_bytes(), next.0, next.1);
    }
    for len in (0..=40).chain(around_edges()) {
        for call in both_have() {
            one(names, call, chance.next() as u16, &bytes[..len]);
        }
    }
    for case in 0..cases {
        if case % 4 == 0 {
            many(names, chance, &bytes);
        }
    }
}

const NEXT: &[&str] = &["DssWriter::next_correlation_id"];

/// The calls that both have, with types that both have.
fn both_have() -> Vec<Call> {
    let mut calls = every_call();
    calls.retain(|call| !call.no_reply());
    calls
}

fn written(call: Call) -> &'static str {
    match call.named().0 {
        "write_dss_full" => "DssWriter::write_dss_full",
        "write_dss" => "DssWriter::write_dss",
        "write_request" => "DssWriter::write_request",
        "write_object" => "DssWriter::write_object",
        "write_object_same_corr" => "DssWriter::write_object_same_corr",
        "write_request_next_same_corr" => "DssWriter::write_request_next_same_corr",
        other => other,
    }
}

/// A frame of a writer of its own or of one of the two builders.
fn one(names: &mut Names, call: Call, id: u16, payload: &[u8]) {
    let input = [
        format!("{:?}", call.named()).as_bytes(),
        &payload.len().to_be_bytes(),
    ]
    .concat();
    if matches!(call, BuildRequest { .. } | BuildObject { .. }) {
        let given = (
            port::writer::build(call, id, payload),
            rust::writer::build(call, id, payload),
        );
        return names.same(&[written(call)], &input, given.0, given.1);
    }
    let (mut a, mut b) = (port::writer::Writer::new(id), rust::writer::Writer::new(id));
    a.write(call, payload);
    b.write(call, payload);
    names.same(
        &[written(call), "DssWriter::finish"],
        &input,
        a.finish(),
        b.finish(),
    );
}

/// One writer through many calls; at times its clone goes on instead. What it holds is compared after each.
fn many(names: &mut Names, chance: &mut Chance, bytes: &[u8]) {
    let first = chance.next() as u16;
    let (mut a, mut b) = (
        port::writer::Writer::new(first),
        rust::writer::Writer::new(first),
    );
    let calls = both_have();
    for _ in 0..2 + chance.below(14) {
        let mut called = "DssWriter::data";
        match chance.below(10) {
            0 => {
                let next = (a.next(), b.next());
                names.same(NEXT, &[], next.0, next.1);
            }
            1 => {
                let id = chance.next() as u16;
                a.set(id);
                b.set(id);
                called = "DssWriter::set_correlation_id";
            }
            2 => names.same(&["DssWriter::finish"], &[], a.finish(), b.finish()),
            3 => (a, b) = (a.clone(), b.clone()),
            _ => {
                let call = calls[chance.below(calls.len())];
                if !call.builds() {
                    let len = random_length(chance, 4096);
                    let from = chance.below(MOST - len + 1);
                    a.write(call, &bytes[from..from + len]);
                    b.write(call, &bytes[from..from + len]);
                    called = written(call);
                }
            }
        }
        let held = [called, "DssWriter::data", "DssWriter::correlation_id"];
        names.same(&held, &first.to_be_bytes(), a.state(), b.state());
    }
    if a.state().0 .0.len() < 400 {
        names.same(&["DssWriter"], &[], a.shown(), b.shown());
    }
}
