//! The port's functions, as `bindings/rust` has them. Those that take several lent buffers besides numbers get them as a loan.
use lattrugone::port;
pub use lattrugone::port::{
    as_i32, as_u16, as_u32, build_param_u16, builder_add_u16, builder_add_u32,
    builder_total_length, change_param, change_param_len, change_request, decide_continuation,
    decode_continuation_len, decode_dss_length, find_param, first_frame_end, flags_from_byte,
    frame_end, frame_size, has_frame, head_parse, is_full_continuation_len, measure_frame,
    next_correlation_id, next_frame, object, object_total_length, objects, param_step, parameters,
    parse_marshaled_length, remaining, strip_markers, take_frame, type_from_byte,
};

/// What a head is written from: its numbers, and the bytes of its type and its flags.
#[derive(Clone, Copy)]
pub struct Head {
    pub length: u16,
    pub dss_type: u8,
    pub flags: u8,
    pub correlation_id: u16,
}

pub fn head_serialize(head: Head, room: &mut [u8], words: &mut [u64]) -> u8 {
    port::head_serialize(
        head.length,
        head.dss_type,
        head.flags,
        head.correlation_id,
        room,
        words,
    )
}

/// What a call of the writer or the builder lends.
pub struct Loan<'a> {
    pub payload: &'a [u8],
    pub room: &'a mut [u8],
    pub words: &'a mut [u64],
}

/// Functions that take numbers and a loan.
macro_rules! lending {
    ($($name:ident($($number:ident: $kind:ty),*);)*) => {
        $(pub fn $name($($number: $kind,)* loan: Loan) -> u8 {
            port::$name($($number,)* loan.payload, loan.room, loan.words)
        })*
    };
}

lending! {
    write_dss_full(id: u16, fill: usize, dss_type: u8, flags: u8);
    write_dss(id: u16, fill: usize, dss_type: u8, chained: u8);
    write_request(id: u16, fill: usize, chained: u8);
    write_request_no_reply(id: u16, fill: usize, chained: u8);
    write_object(id: u16, fill: usize, chained: u8);
    write_object_same_corr(id: u16, fill: usize, chained: u8);
    write_request_next_same_corr(id: u16, fill: usize, chained: u8);
    build_dss_request(id: u16, chained: u8);
    build_dss_object(id: u16, chained: u8);
    builder_add_code_point(fill: usize, cp: u16);
    builder_add_raw(fill: usize);
    builder_build(code_point: u16, fill: usize);
    build_param(code_point: u16);
    build_ddm_object(code_point: u16);
}

/// What a call lends that fills a room with payloads and a row with records.
pub struct RowLoan<'a> {
    pub run: &'a [u8],
    pub room: &'a mut [u8],
    pub row: &'a mut [u64],
    pub words: &'a mut [u64],
}

pub fn read_all_frames(at: usize, loan: RowLoan) -> u8 {
    port::read_all_frames(loan.run, at, loan.room, loan.row, loan.words)
}

pub fn salvage(loan: RowLoan) -> u8 {
    port::salvage(loan.run, loan.room, loan.row, loan.words)
}
