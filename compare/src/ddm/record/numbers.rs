//! Numbers read from data, and what objects take.
use crate::answers::{done, expected, refused, ANSWER_WORDS};
use crate::ddm::rust::text;
use crate::record::{Asked, List, FEW_WORDS};
use db2_proto::ddm::DdmParam;

pub fn numbers(list: &mut List) {
    let edges = [
        0,
        1,
        0x7FFF,
        0x8000,
        0xFFFF,
        0x7FFF_FFFF,
        0x8000_0000,
        0x8000_0001,
        u32::MAX,
    ];
    for number in edges {
        let bytes = [&number.to_be_bytes()[..], &[0x5A]].concat();
        for len in 0..=bytes.len() {
            read(list, &bytes[..len], ANSWER_WORDS);
        }
        read(list, &bytes[2..], ANSWER_WORDS);
    }
    for words in FEW_WORDS {
        read(list, &[0x80, 1, 2], words);
        read(list, &[0x80, 1, 2, 3], words);
    }
}

/// The three readings of data; a negative number as two's complement of 64 bits.
fn read(list: &mut List, data: &[u8], words: usize) {
    let param = DdmParam {
        code_point: 0x2412,
        data: data.to_vec(),
    };
    let readings = [
        param.as_u16().map(|n| n as u64),
        param.as_u32().map(|n| n as u64),
        param.as_i32().map(|n| n as i64 as u64),
    ];
    for (call, number) in (112..).zip(readings) {
        let answer = number.map_or(refused(11, 0, &[]), |number| done(&[number]));
        list.answer(
            Asked::new(call, &[], data).words(words),
            0,
            &expected(answer, words),
        );
    }
}

/// How long objects are: around each edge, and above 2^64 - 1 "as that".
pub fn total_lengths(list: &mut List) {
    let edges = [
        3,
        32_763,
        2_147_483_643,
        140_737_488_355_323,
        usize::MAX - 12,
        usize::MAX - 1,
    ];
    for len in edges
        .into_iter()
        .flat_map(|edge| edge - 2..=edge.saturating_add(2))
    {
        let total = text::header_len(len).saturating_add(len) as u64;
        list.number(Asked::new(115, &[len as u64], &[]), total);
        list.number(Asked::new(116, &[len as u64], &[]), total);
    }
}
