//! Module 2's answers for the list.
use super::call::{and_no_type, every_call, Call};
use super::case::Case;
use super::sizes::{due, LONGEST};
use crate::answers::ANSWER_WORDS;
use crate::record::{counted, Asked, List, FEW_WORDS};
use db2_proto::dss::DssWriter;
use Call::*;

/// Document 01's edges and their neighbours, and those of three segments.
const LONG: [usize; 12] = [
    32_760, 32_761, 32_762, 32_763, 65_524, 65_525, 65_526, 65_527, 65_528, 98_290, 98_291, 98_292,
];
const SHORT: [usize; 4] = [0, 1, 5, 300];

/// So many of the calls are made with each long payload.
const FEW: usize = 5;

pub fn record(list: &mut List) {
    numbers(list);
    let mut turn = 0;
    for len in SHORT {
        for call in and_no_type() {
            turn += 1;
            around(list, call, turn, len, &[-1, 0, 7]);
        }
    }
    let calls = every_call();
    for len in LONG {
        for _ in 0..FEW {
            turn += 1;
            around(list, calls[turn * 11 % calls.len()], turn, len, &[-1, 0, 3]);
        }
    }
    marks(list);
    few_words(list);
}

/// The call's number, and its numbers.
fn asked(case: &Case) -> (u64, Vec<u64>) {
    let (id, fill) = (case.id as u64, case.fill as u64);
    let marked = |a: u8, b: u8| vec![id, fill, a as u64, b as u64];
    match case.call {
        Full { dss_type, flags } => (16, marked(dss_type, flags)),
        Dss { dss_type, chained } => (17, marked(dss_type, chained)),
        Request { chained } => (18, marked(chained, 0)),
        RequestNoReply { chained } => (22, marked(chained, 0)),
        Object { chained } => (19, marked(chained, 0)),
        ObjectSame { chained } => (20, marked(chained, 0)),
        RequestSame { chained } => (21, marked(chained, 0)),
        BuildRequest { chained } => (32, vec![id, chained as u64]),
        BuildObject { chained } => (33, vec![id, chained as u64]),
    }
}

/// A case in rooms that have so many bytes more than the frame needs, or fewer.
fn in_rooms(list: &mut List, case: &Case, spares: &[isize]) {
    let payload = counted(case.len, case.from as u16);
    let frame = case.call.rust_frame(case.id, &payload);
    let need = case.fill + frame.as_ref().map_or(0, |(bytes, _)| bytes.len());
    for spare in spares {
        let room = need.saturating_add_signed(*spare);
        let answer = case.expected(&frame, room);
        let (call, numbers) = asked(case);
        let asked = Asked::new(call, &numbers, &payload);
        list.answer(asked.room(room).words(case.words), case.fill, &answer);
    }
}

fn case(call: Call, turn: usize, len: usize) -> Case {
    Case {
        call,
        id: [0, 1, 255, 256, 65535][turn % 5],
        fill: if call.builds() { 0 } else { turn * 7 % 48 },
        from: turn * 257,
        len,
        words: ANSWER_WORDS,
    }
}

fn around(list: &mut List, call: Call, turn: usize, len: usize, spares: &[isize]) {
    in_rooms(list, &case(call, turn, len), spares);
}

/// A fill mark at the room's end, beyond it, and as far beyond it as numbers go.
fn marks(list: &mut List) {
    for call in and_no_type().filter(|call| !call.builds()) {
        for (room, fill) in [(0, 0), (3, 3), (3, 4), (8, usize::MAX), (8, usize::MAX - 6)] {
            let mut case = case(call, 1, 1);
            case.fill = fill;
            let payload = counted(case.len, case.from as u16);
            let frame = call.rust_frame(case.id, &payload);
            let (call, numbers) = asked(&case);
            let asked = Asked::new(call, &numbers, &payload).room(room);
            list.answer(asked, fill, &case.expected(&frame, room));
        }
    }
}

fn few_words(list: &mut List) {
    for words in FEW_WORDS {
        for (turn, call) in and_no_type().enumerate().step_by(3) {
            let mut case = case(call, turn + words, 5);
            case.words = words;
            in_rooms(list, &case, &[-1, 0]);
        }
    }
}

/// The next correlation, and what frames take: the Rust's, and of payloads that it isn't given the documents'.
fn numbers(list: &mut List) {
    for id in [0, 1, 255, 256, 32767, 32768, 65534, 65535] {
        let next = DssWriter::new(id).next_correlation_id();
        list.number(Asked::new(35, &[id as u64], &[]), next as u64);
    }
    for len in SHORT.into_iter().chain(LONG) {
        let mut writer = DssWriter::new(7);
        writer.write_request(&vec![0; len], false);
        let size = writer.data().len() as u64;
        list.number(Asked::new(34, &[len as u64], &[]), size);
    }
    let edge = LONGEST - 1..=LONGEST + 1;
    for len in edge.chain([4 << 20, u64::MAX - 5, u64::MAX]) {
        list.number(Asked::new(34, &[len], &[]), due(len));
    }
}
