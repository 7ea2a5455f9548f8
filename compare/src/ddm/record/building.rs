//! The builder.
use crate::answers::{done, expected, refused, Answer, ANSWER_WORDS};
use crate::ddm::building::{every_call, laid, Call};
use crate::ddm::case::Held;
use crate::ddm::rust::text::DdmBuilder;
use crate::record::{counted, Asked, List, FEW_WORDS};

/// Data at both sides of each edge.
const DATA: [usize; 8] = [0, 1, 5, 300, 32_762, 32_763, 32_764, 65_536];

pub fn building(list: &mut List) {
    let mut held = Held::new();
    let mut turn = 0;
    for len in DATA {
        let data = counted(len, len as u16);
        for call in every_call(0x241B, 0x8001_0203) {
            turn += 1;
            around(list, &held, call, turn * 5 % 40, &data);
        }
        for room in [3, 4, 7, 8] {
            let room = room + len;
            for fill in [len, len.saturating_sub(1), len + 1] {
                build(list, fill, &data, room, ANSWER_WORDS);
            }
        }
    }
    for call in every_call(0x2401, 0xFFFF) {
        for (room, fill) in [(0, 0), (3, 4), (20, 21), (20, usize::MAX)] {
            add(list, &held, call, fill, &[0xC1], room);
        }
    }
    for words in FEW_WORDS {
        held.lent_words = words;
        for call in every_call(0xFFFF, 7) {
            around(list, &held, call, 3, &[0xC1, 0xC2]);
        }
        for room in [5, 6] {
            build(list, 2, &[0xC1, 0xC2, 0xC3], room, words);
        }
    }
}

/// The call's number and its numbers, of a fill mark where it has one.
fn asked(call: Call, fill: usize) -> (u64, [u64; 3]) {
    let fill = fill as u64;
    match call {
        Call::AddCodePoint { cp } => (128, [fill, cp as u64, 0]),
        Call::AddU16 { cp, val } => (129, [fill, cp as u64, val as u64]),
        Call::AddU32 { cp, val } => (130, [fill, cp as u64, val as u64]),
        Call::AddRaw => (131, [fill, 0, 0]),
        Call::BuildParam { cp } => (144, [cp as u64, 0, 0]),
        Call::BuildParamU16 { cp, value } => (145, [cp as u64, value as u64, 0]),
        Call::BuildObject { cp } => (146, [cp as u64, 0, 0]),
    }
}

/// One call in a room of so many bytes; a call that takes no data has no input.
fn add(list: &mut List, held: &Held, call: Call, fill: usize, data: &[u8], room: usize) {
    let bytes = call.bytes(data);
    let mark = if call.adds() { fill } else { 0 };
    let answer: Answer = laid(held, mark, room, &bytes, mark.wrapping_add(bytes.len()));
    let (number, numbers) = asked(call, fill);
    let input = if [129, 130, 145].contains(&number) {
        &[]
    } else {
        data
    };
    let asked = Asked::new(number, &numbers, input).room(room);
    list.answer(asked.words(held.lent_words), mark, &answer);
}

fn around(list: &mut List, held: &Held, call: Call, fill: usize, data: &[u8]) {
    let mark = if call.adds() { fill } else { 0 };
    let need = mark + call.bytes(data).len();
    for room in [need.saturating_sub(1), need, need + 6] {
        add(list, held, call, fill, data, room);
    }
}

/// A builder's object: its data are the first bytes of `content`, up to the fill mark.
fn build(list: &mut List, fill: usize, content: &[u8], room: usize, words: usize) {
    let at = fill as u64;
    let answer = match content.get(..fill) {
        None => expected(refused(10, at, &[at, content.len() as u64]), words),
        Some(data) => {
            let object = DdmBuilder::new(0x2412).add_raw(data).build();
            match room < object.len() {
                true => expected(refused(9, at, &[object.len() as u64, 0]), words),
                false => expected(done(&[object.len() as u64]), words).laying(&object),
            }
        }
    };
    let asked = Asked::new(132, &[at, 0x2412], content)
        .room(room)
        .words(words);
    list.answer(asked, 0, &answer);
}
