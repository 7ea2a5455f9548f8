//! The archive's functions as they are: numbers and slices in, an answer's number out, an answer's words at the start of `words`. What
//! each reads, writes and answers stands in `include/lattrugone.h`. Nothing is allocated. Here is all of this crate's `unsafe`.

/// How many words an answer has.
pub const ANSWER_WORDS: usize = 8;

/// How many words a record of frames or of salvage entries has: an answer's, its first byte, and the byte after its last.
pub const RECORD_WORDS: usize = 10;

/// How many words a record of objects or parameters has.
pub const OBJECT_WORDS: usize = 8;

/// An answer's words.
pub type Words = [u64; ANSWER_WORDS];

/// The words of a record of frames or of salvage entries.
pub type Record = [u64; RECORD_WORDS];

// Declares each function as the archive exports it, where a slice goes as its pointer and then its length, and a safe function
// of the same name that takes the slice. It goes through the arguments one by one and gathers three things in brackets: the safe
// function's arguments, the exported one's, and what is handed on.
//
// Why the call is sound. A function in the archive asks of its caller that each pointer and length are those of a slice and
// that no two overlap of which one is written, and nothing more: it is proved to end, to touch nothing else and to do nothing
// undefined for every such call (no exported function has a `requires`). Here each pointer and length come from a slice that is
// borrowed for the call, `&mut` where it is written, and the compiler sees to it that such borrows don't overlap. The words and
// bytes that are written are plain numbers, so whatever is laid down is a value of its type. The functions keep no state and no
// pointer. `bindings/signatures` holds the table to the functions' own signatures and to the header.
macro_rules! port {
    ($($(#[$doc:meta])* fn $name:ident = $export:ident($($args:tt)*) -> $out:ty;)*) => {
        $(port! { @ [$(#[$doc])* $name $export $out] [] [] [] $($args)*, })*
    };
    (@ $is:tt [$($safe:tt)*] [$($raw:tt)*] [$($on:tt)*] $arg:ident: &[$of:ty], $($rest:tt)*) => {
        port! { @ $is [$($safe)* $arg: &[$of],] [$($raw)* _: *const $of, _: usize,]
            [$($on)* $arg.as_ptr(), $arg.len(),] $($rest)* }
    };
    (@ $is:tt [$($safe:tt)*] [$($raw:tt)*] [$($on:tt)*] $arg:ident: &mut [$of:ty], $($rest:tt)*) => {
        port! { @ $is [$($safe)* $arg: &mut [$of],] [$($raw)* _: *mut $of, _: usize,]
            [$($on)* $arg.as_mut_ptr(), $arg.len(),] $($rest)* }
    };
    (@ $is:tt [$($safe:tt)*] [$($raw:tt)*] [$($on:tt)*] $arg:ident: $number:ident, $($rest:tt)*) => {
        port! { @ $is [$($safe)* $arg: $number,] [$($raw)* _: $number,] [$($on)* $arg,] $($rest)* }
    };
    (@ [$(#[$doc:meta])* $name:ident $export:ident $out:ty] [$($safe:tt)*] [$($raw:tt)*] [$($on:tt)*]) => {
        $(#[$doc])*
        pub fn $name($($safe)*) -> $out {
            extern "C" {
                fn $export($($raw)*) -> $out;
            }
            unsafe { $export($($on)*) }
        }
    };
}

// ---- heads
port! {
    /// The length that a head's two bytes say.
    fn decode_dss_length = lattrugone_decode_dss_length(raw: u16) -> u16;
    /// 1 where a continuation of this length must be followed by another, else 0.
    fn is_full_continuation_len = lattrugone_is_full_continuation_len(raw: u16) -> u8;
    /// How many bytes a continuation takes.
    fn decode_continuation_len = lattrugone_decode_continuation_len(raw: u16) -> usize;
    /// What a continuation's length means: 0 never whole, 1 the last, 2 full.
    fn decide_continuation = lattrugone_decide_continuation(raw: u16) -> u8;
    /// The type in a byte.
    fn type_from_byte = lattrugone_type_from_byte(b: u8, words: &mut [u64]) -> u8;
    /// The flags in a format byte.
    fn flags_from_byte = lattrugone_flags_from_byte(b: u8) -> u8;
    /// A head from six bytes.
    fn head_parse = lattrugone_head_parse(data: &[u8], words: &mut [u64]) -> u8;
    /// A head as six bytes.
    fn head_serialize = lattrugone_head_serialize(length: u16, dss_type: u8, flags: u8, correlation_id: u16, room: &mut [u8], words: &mut [u64]) -> u8;
}

// ---- the writer
port! {
    /// How many bytes a frame takes, of its payload's length.
    fn frame_size = lattrugone_frame_size(payload_len: usize) -> usize;
    /// The next correlation.
    fn next_correlation_id = lattrugone_next_correlation_id(id: u16) -> u16;
    /// A frame from the fill mark on.
    fn write_dss_full = lattrugone_write_dss_full(correlation_id: u16, fill: usize, dss_type: u8, flags: u8, payload: &[u8], room: &mut [u8], words: &mut [u64]) -> u8;
    /// The same, same correlation clear.
    fn write_dss = lattrugone_write_dss(correlation_id: u16, fill: usize, dss_type: u8, chained: u8, payload: &[u8], room: &mut [u8], words: &mut [u64]) -> u8;
    /// A request.
    fn write_request = lattrugone_write_request(correlation_id: u16, fill: usize, chained: u8, payload: &[u8], room: &mut [u8], words: &mut [u64]) -> u8;
    /// A request that wants no reply.
    fn write_request_no_reply = lattrugone_write_request_no_reply(correlation_id: u16, fill: usize, chained: u8, payload: &[u8], room: &mut [u8], words: &mut [u64]) -> u8;
    /// An object.
    fn write_object = lattrugone_write_object(correlation_id: u16, fill: usize, chained: u8, payload: &[u8], room: &mut [u8], words: &mut [u64]) -> u8;
    /// An object, same correlation set.
    fn write_object_same_corr = lattrugone_write_object_same_corr(correlation_id: u16, fill: usize, chained: u8, payload: &[u8], room: &mut [u8], words: &mut [u64]) -> u8;
    /// A request, same correlation set.
    fn write_request_next_same_corr = lattrugone_write_request_next_same_corr(correlation_id: u16, fill: usize, chained: u8, payload: &[u8], room: &mut [u8], words: &mut [u64]) -> u8;
    /// A request's frame at the room's first byte.
    fn build_dss_request = lattrugone_build_dss_request(correlation_id: u16, chained: u8, payload: &[u8], room: &mut [u8], words: &mut [u64]) -> u8;
    /// An object's frame at the room's first byte.
    fn build_dss_object = lattrugone_build_dss_object(correlation_id: u16, chained: u8, payload: &[u8], room: &mut [u8], words: &mut [u64]) -> u8;
}

// ---- the reader
port! {
    /// How many bytes of the run aren't read yet.
    fn remaining = lattrugone_remaining(run: &[u8], at: usize) -> usize;
    /// 1 where the frame at the position is whole, else 0.
    fn has_frame = lattrugone_has_frame(run: &[u8], at: usize) -> u8;
    /// The end of the frame at the position.
    fn frame_end = lattrugone_frame_end(run: &[u8], at: usize, words: &mut [u64]) -> u8;
    /// The end of the first frame.
    fn first_frame_end = lattrugone_first_frame_end(run: &[u8], words: &mut [u64]) -> u8;
    /// The frame at the position.
    fn next_frame = lattrugone_next_frame(run: &[u8], at: usize, room: &mut [u8], words: &mut [u64]) -> u8;
    /// The frame at the position, by the rules of a number (0 the reader's, any other salvage's): measured, and nothing laid down.
    fn measure_frame = lattrugone_measure_frame(rules: u8, run: &[u8], at: usize, words: &mut [u64]) -> u8;
    /// The same frame, its payload laid down at the room's first byte.
    fn take_frame = lattrugone_take_frame(rules: u8, run: &[u8], at: usize, room: &mut [u8], words: &mut [u64]) -> u8;
    /// All frames from the position on.
    fn read_all_frames = lattrugone_read_all_frames(run: &[u8], at: usize, room: &mut [u8], row: &mut [u64], words: &mut [u64]) -> u8;
    /// The salvage reading.
    fn salvage = lattrugone_salvage(run: &[u8], room: &mut [u8], row: &mut [u64], words: &mut [u64]) -> u8;
}

// ---- objects and parameters
port! {
    /// What a length field says.
    fn parse_marshaled_length = lattrugone_parse_marshaled_length(data: &[u8], words: &mut [u64]) -> u8;
    /// Data without continuation markers.
    fn strip_markers = lattrugone_strip_markers(data: &[u8], room: &mut [u8], words: &mut [u64]) -> u8;
    /// The object at a position.
    fn object = lattrugone_object(run: &[u8], at: usize, work: &mut [u8], words: &mut [u64]) -> u8;
    /// All objects of a run.
    fn objects = lattrugone_objects(run: &[u8], work: &mut [u8], row: &mut [u64], words: &mut [u64]) -> u8;
    /// All parameters in an object's data.
    fn parameters = lattrugone_parameters(data: &[u8], work: &mut [u8], row: &mut [u64], words: &mut [u64]) -> u8;
    /// The first parameter with a code point.
    fn find_param = lattrugone_find_param(data: &[u8], code_point: u16, work: &mut [u8], words: &mut [u64]) -> u8;
    /// One step over the parameters.
    fn param_step = lattrugone_param_step(data: &[u8], at: usize, words: &mut [u64]) -> u8;
    /// How many bytes an object with so much data is built of.
    fn object_total_length = lattrugone_object_total_length(data_len: usize) -> usize;
    /// The number in the first two bytes.
    fn as_u16 = lattrugone_as_u16(data: &[u8], words: &mut [u64]) -> u8;
    /// The number in the first four bytes.
    fn as_u32 = lattrugone_as_u32(data: &[u8], words: &mut [u64]) -> u8;
    /// The same with a sign.
    fn as_i32 = lattrugone_as_i32(data: &[u8], words: &mut [u64]) -> u8;
}

// ---- building objects
port! {
    /// Adds a parameter.
    fn builder_add_code_point = lattrugone_builder_add_code_point(fill: usize, cp: u16, data: &[u8], room: &mut [u8], words: &mut [u64]) -> u8;
    /// Adds a parameter that is a number of two bytes.
    fn builder_add_u16 = lattrugone_builder_add_u16(fill: usize, cp: u16, val: u16, room: &mut [u8], words: &mut [u64]) -> u8;
    /// Adds a parameter that is a number of four bytes.
    fn builder_add_u32 = lattrugone_builder_add_u32(fill: usize, cp: u16, val: u32, room: &mut [u8], words: &mut [u64]) -> u8;
    /// Adds bytes as they are.
    fn builder_add_raw = lattrugone_builder_add_raw(fill: usize, data: &[u8], room: &mut [u8], words: &mut [u64]) -> u8;
    /// The object with the first `fill` bytes of `content` as its data.
    fn builder_build = lattrugone_builder_build(code_point: u16, fill: usize, content: &[u8], room: &mut [u8], words: &mut [u64]) -> u8;
    /// How many bytes that is.
    fn builder_total_length = lattrugone_builder_total_length(fill: usize) -> usize;
    /// A parameter at the room's first byte.
    fn build_param = lattrugone_build_param(code_point: u16, data: &[u8], room: &mut [u8], words: &mut [u64]) -> u8;
    /// A parameter that is a number of two bytes.
    fn build_param_u16 = lattrugone_build_param_u16(code_point: u16, value: u16, room: &mut [u8], words: &mut [u64]) -> u8;
    /// An object at the room's first byte.
    fn build_ddm_object = lattrugone_build_ddm_object(code_point: u16, payload: &[u8], room: &mut [u8], words: &mut [u64]) -> u8;
}

// ---- changing one parameter
port! {
    /// An object's data with the first parameter of a code point changed.
    fn change_param = lattrugone_change_param(data: &[u8], code_point: u16, new: &[u8], room: &mut [u8], words: &mut [u64]) -> u8;
    /// How many bytes that is, with so many new ones.
    fn change_param_len = lattrugone_change_param_len(data: &[u8], code_point: u16, new_len: usize, words: &mut [u64]) -> u8;
    /// A frame with the first parameter of a code point in its one object changed.
    fn change_request = lattrugone_change_request(frame: &[u8], code_point: u16, new: &[u8], room: &mut [u8], words: &mut [u64]) -> u8;
}
