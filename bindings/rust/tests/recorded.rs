//! The Rust's recorded answers (recorded.bin; crates/replay/data/README says how they are made), replayed through the archives: each
//! call again, with the same input and the same lent buffers, and what it returns, its words and the sums of room and row compared.
//! How the list is laid out stands in compare/src/record.rs.
use lattrugone::port::*;

/// So many words are recorded, also where fewer are lent.
const RECORDED_WORDS: usize = 12;

/// What fills lent buffers before a call.
const BYTE: u8 = 0xA5;
const WORD: u64 = 90;

/// What of the list isn't read yet.
struct List<'a>(&'a [u8]);

impl List<'_> {
    fn bytes(&mut self, len: usize) -> &[u8] {
        let (first, rest) = self.0.split_at(len);
        self.0 = rest;
        first
    }

    fn number(&mut self) -> u64 {
        let first = self.bytes(1)[0];
        if first < 248 {
            return first as u64;
        }
        let spelled = self.bytes(first as usize - 247);
        spelled.iter().fold(0, |number, b| number << 8 | *b as u64)
    }

    fn numbers<const N: usize>(&mut self) -> [u64; N] {
        std::array::from_fn(|_| self.number())
    }

    fn input(&mut self) -> Vec<u8> {
        let mut run = Vec::new();
        for _ in 0..self.number() {
            let head = self.number();
            let len = (head / 4) as usize;
            match head % 4 {
                0 => run.extend_from_slice(self.bytes(len)),
                1 => run.resize(run.len() + len, self.number() as u8),
                _ => count_out(self.number() as u16, len, &mut run),
            }
        }
        run
    }
}

/// The high bytes of a row of 16-bit numbers that comes back to its start after 65,536.
fn count_out(start: u16, len: usize, run: &mut Vec<u8>) {
    let mut x = start;
    for _ in 0..len {
        run.push((x >> 8) as u8);
        x = x.wrapping_mul(25173).wrapping_add(13849);
    }
}

/// 64-bit FNV-1a, of words with a word in the place of a byte; 0 of nothing.
fn sum<T: Copy + Into<u64>>(units: &[T]) -> u64 {
    if units.is_empty() {
        return 0;
    }
    let mut sum = 0xCBF2_9CE4_8422_2325;
    for unit in units {
        sum = (sum ^ (*unit).into()).wrapping_mul(0x100_0000_01B3);
    }
    sum
}

/// What is lent to a call.
struct Lent {
    room: Vec<u8>,
    row: Vec<u64>,
    words: [u64; RECORDED_WORDS],
}

/// Makes the call of a number with four numbers and an input; so many words are lent.
fn made(call: u64, numbers: [u64; 4], run: &[u8], lent: &mut Lent, words: usize) -> u64 {
    let [a, b, c, d] = numbers;
    let (at, fill, id) = (a as usize, b as usize, a as u16);
    let (room, row) = (&mut lent.room[..], &mut lent.row[..]);
    let w = &mut lent.words[..words];
    let number = match call {
        // heads
        0 => return decode_dss_length(id) as u64,
        1 => is_full_continuation_len(id),
        2 => return decode_continuation_len(id) as u64,
        3 => decide_continuation(id),
        4 => type_from_byte(a as u8, w),
        5 => flags_from_byte(a as u8),
        6 => head_parse(run, w),
        7 => head_serialize(id, b as u8, c as u8, d as u16, room, w),
        // the writer
        16 => write_dss_full(id, fill, c as u8, d as u8, run, room, w),
        17 => write_dss(id, fill, c as u8, d as u8, run, room, w),
        18 => write_request(id, fill, c as u8, run, room, w),
        19 => write_object(id, fill, c as u8, run, room, w),
        20 => write_object_same_corr(id, fill, c as u8, run, room, w),
        21 => write_request_next_same_corr(id, fill, c as u8, run, room, w),
        22 => write_request_no_reply(id, fill, c as u8, run, room, w),
        32 => build_dss_request(id, b as u8, run, room, w),
        33 => build_dss_object(id, b as u8, run, room, w),
        34 => return frame_size(at) as u64,
        35 => return next_correlation_id(id) as u64,
        // the reader and the salvage reading
        48 => return remaining(run, at) as u64,
        49 => has_frame(run, at),
        50 => frame_end(run, at, w),
        51 => first_frame_end(run, w),
        52 => next_frame(run, at, room, w),
        64 => read_all_frames(run, at, room, row, w),
        65 => salvage(run, room, row, w),
        // lengths, objects and parameters
        80 => parse_marshaled_length(run, w),
        81 => strip_markers(run, room, w),
        82 => object(run, at, room, w),
        83 => find_param(run, a as u16, room, w),
        84 => param_step(run, at, w),
        96 => objects(run, room, row, w),
        97 => parameters(run, room, row, w),
        112 => as_u16(run, w),
        113 => as_u32(run, w),
        114 => as_i32(run, w),
        115 => return object_total_length(at) as u64,
        116 => return builder_total_length(at) as u64,
        // the builder
        128 => builder_add_code_point(at, b as u16, run, room, w),
        129 => builder_add_u16(at, b as u16, c as u16, room, w),
        130 => builder_add_u32(at, b as u16, c as u32, room, w),
        131 => builder_add_raw(at, run, room, w),
        132 => builder_build(b as u16, at, run, room, w),
        144 => build_param(id, run, room, w),
        145 => build_param_u16(id, b as u16, room, w),
        146 => build_ddm_object(id, run, room, w),
        _ => panic!("no call has the number {call}"),
    };
    number as u64
}

/// Makes the call that stands next in the list, and holds what it comes to to what is recorded.
fn replay(list: &mut List, index: u64) {
    let call = list.number();
    let numbers = list.numbers();
    let [room, row, words] = list.numbers();
    let run = list.input();
    let mut lent = Lent {
        room: vec![BYTE; room as usize],
        row: vec![WORD; row as usize],
        words: [WORD; RECORDED_WORDS],
    };
    let returned = made(call, numbers, &run, &mut lent, words as usize);
    let answer = (returned, lent.words, sum(&lent.room), sum(&lent.row));
    let recorded = (list.number(), list.numbers(), list.number(), list.number());
    assert_eq!(answer, recorded, "answer {index}, of call {call}");
}

#[test]
fn recorded_answers() {
    let mut list = List(include_bytes!("recorded.bin"));
    let count = list.number();
    assert_ne!(count, 0);
    for index in 0..count {
        replay(&mut list, index);
    }
    assert!(list.0.is_empty(), "the list goes on behind its answers");
}
