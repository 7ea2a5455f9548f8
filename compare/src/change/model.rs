//! What changing one parameter comes to, from document 02, W-204 and W-203, alone, and what is beyond them (`change_request`)
//! from the order that the header gives: the rules, each above what does it. It shares nothing with the port. Only the bytes that
//! are written anew are the Rust's, its builder's and its writer's.
use crate::answers::{refused, Words};
use crate::ddm::rust::text::header_len;
use db2_proto::ddm::{build_ddm_object, build_param};
use db2_proto::dss::build_dss_request;

/// The bytes that are laid down, or every refusal but 9.
pub type Due = Result<Vec<u8>, Words>;

/// Two bytes as a number.
fn number(bytes: &[u8], at: usize) -> usize {
    bytes[at] as usize * 256 + bytes[at + 1] as usize
}

/// 17 at a place.
fn unsound(place: usize) -> Words {
    refused(17, place as u64, &[])
}

// ---- objects and parameters

/// What the object or parameter at the front of some bytes takes.
struct Taken {
    header: usize,
    total: usize,
}

/// Why there is none: 4, 5, 6 or 8, and the values.
struct Unfit {
    number: u64,
    values: Vec<usize>,
}

impl Unfit {
    fn at(self, place: usize) -> Words {
        let values: Vec<u64> = self.values.iter().map(|value| *value as u64).collect();
        refused(self.number, place as u64, &values)
    }
}

fn taken(bytes: &[u8]) -> Result<Taken, Unfit> {
    let unfit = |number: u64, values: &[usize]| {
        let values = values.to_vec();
        Err(Unfit { number, values })
    };
    let len = bytes.len();
    // 4: fewer than four bytes.
    if len < 4 {
        return unfit(4, &[4, len]);
    }
    let raw = number(bytes, 0);
    let (header, total) = match raw {
        0..=0x7FFF => (4, raw as u128),
        // "raw 0x8004 takes all remaining bytes"
        0x8004 => (4, len as u128),
        _ => {
            let header = raw - 0x8000;
            // "raw 0x8000 to 0x8003: 6"
            if header < 4 {
                return unfit(6, &[header]);
            }
            // "extended header (raw less 0x8000) longer than the bytes: 4"
            if len < header {
                return unfit(4, &[header, len]);
            }
            let beyond = 1 << 64;
            let put = |n: u128, b: &u8| (n * 256 + *b as u128).min(beyond);
            (
                header,
                header as u128 + bytes[4..header].iter().fold(0, put),
            )
        }
    };
    // "8 when the number in all length bytes plus header length exceeds 2^64 - 1"
    let Ok(total) = usize::try_from(total) else {
        return unfit(8, &[header]);
    };
    // "inline length below 4: 5"
    if total < header {
        return unfit(5, &[total, header, number(bytes, 2)]);
    }
    // "total longer than the bytes: 4"
    if len < total {
        return unfit(4, &[total, len]);
    }
    Ok(Taken { header, total })
}

/// The first parameter with a code point, from its first byte up to the one behind its last; or 17, then 11. `place` says where
/// a byte of the data stands.
fn spot(
    data: &[u8],
    code_point: u16,
    place: impl Fn(usize) -> usize,
) -> Result<(usize, usize), Words> {
    let (mut at, mut first) = (0, None);
    while at < data.len() {
        // "17 when the parameters don't reach the data's end or one has raw length 0x8004", at the parameter at fault.
        let Ok(param) = taken(&data[at..]) else {
            return Err(unsound(place(at)));
        };
        if number(data, at) == 0x8004 {
            return Err(unsound(place(at)));
        }
        let end = at + param.total;
        if first.is_none() && number(data, at + 2) == code_point as usize {
            first = Some((at, end));
        }
        at = end;
    }
    first.ok_or(refused(11, 0, &[]))
}

/// "the same data with the first such parameter rewritten as the builder would write it. All bytes before and after that
/// parameter are copied as they are"
fn rewritten(data: &[u8], (from, end): (usize, usize), code_point: u16, new: &[u8]) -> Vec<u8> {
    [&data[..from], &build_param(code_point, new), &data[end..]].concat()
}

pub fn change_param(data: &[u8], code_point: u16, new: &[u8]) -> Due {
    let spot = spot(data, code_point, |at| at)?;
    Ok(rewritten(data, spot, code_point, new))
}

/// How many bytes that is: "a need above 2^64 - 1 is given as that".
pub fn change_param_len(data: &[u8], code_point: u16, new_len: usize) -> Result<u64, Words> {
    let (from, end) = spot(data, code_point, |at| at)?;
    let parts = [from, header_len(new_len), new_len, data.len() - end];
    let sum: u128 = parts.iter().map(|part| *part as u128).sum();
    Ok(sum.min(u64::MAX as u128) as u64)
}

// ---- requests

/// A frame that was read: where each byte of its payload stands, and the frame's end.
struct Read {
    places: Vec<usize>,
    end: usize,
}

/// The frame's own segments; or 1 or 16 where it isn't whole.
fn whole(frame: &[u8]) -> Result<Read, Words> {
    let not_yet = Err(refused(1, 0, &[]));
    if frame.len() < 6 {
        return not_yet;
    }
    let raw = number(frame, 0);
    let mut end = if raw == 0xFFFF { 32_767 } else { raw };
    if frame.len() < end {
        return not_yet;
    }
    let mut places: Vec<usize> = (6..end).collect();
    let mut more = raw == 0xFFFF;
    while more {
        if frame.len() - end < 2 {
            return not_yet;
        }
        let raw = number(frame, end);
        // "16 says a continuation length of 0 or 1 was reached in an otherwise present frame, with the place of that length; 1
        // remains for all else."
        if raw < 2 {
            return Err(refused(16, end as u64, &[]));
        }
        more = raw == 0x7FFF || raw == 0xFFFF;
        let takes = if more { 32_767 } else { raw };
        if frame.len() - end < takes {
            return not_yet;
        }
        places.extend(end + 2..end + takes);
        end += takes;
    }
    Ok(Read { places, end })
}

/// The refusals of reading the one frame by the reader's rules, nothing absorbed: 1 or 16, 2, 3, 7. "16 takes 1's place in the
/// order."
fn read(frame: &[u8]) -> Result<Read, Words> {
    let read = whole(frame)?;
    if frame[2] != 0xD0 {
        return Err(refused(2, 0, &[frame[2] as u64]));
    }
    let low = frame[3] & 15;
    // W-210: "The type reading accepts 1 to 5".
    if low == 0 || low > 5 {
        return Err(refused(3, 0, &[low as u64]));
    }
    if number(frame, 0) < 6 {
        return Err(refused(7, 0, &[number(frame, 0) as u64]));
    }
    Ok(read)
}

/// A payload of "32,761 plus one or more times 32,765" bytes.
pub fn unreadable(payload: usize) -> bool {
    payload > 32_761 && (payload - 32_761) % 32_765 == 0
}

/// What the writer makes of a payload, with the format byte and correlation of the frame given.
fn reframed(frame: &[u8], payload: &[u8]) -> Vec<u8> {
    let mut after = build_dss_request(0, false, payload);
    after[2..6].copy_from_slice(&frame[2..6]);
    after
}

pub fn change_request(frame: &[u8], code_point: u16, new: &[u8]) -> Due {
    let Read { places, end } = read(frame)?;
    let payload: Vec<u8> = places.iter().map(|place| frame[*place]).collect();
    let object = taken(&payload);
    // 17 where bytes are left over behind the frame or behind its one object, at the first of them.
    match &object {
        Ok(object) if object.total < payload.len() => return Err(unsound(places[object.total])),
        _ if end < frame.len() => return Err(unsound(end)),
        _ => (),
    }
    // The object's own, 4, 5, 6, 8: it stands behind the head.
    let object = object.map_err(|unfit| unfit.at(6))?;
    // 17 for an object of raw length 0x8004.
    if number(&payload, 0) == 0x8004 {
        return Err(unsound(6));
    }
    // 17, 11: a place is a byte of the frame, the heads of its continuations counted in.
    let data = &payload[object.header..];
    let spot = spot(data, code_point, |at| places[object.header + at])?;
    let data = rewritten(data, spot, code_point, new);
    let object = build_ddm_object(number(&payload, 2) as u16, &data);
    // 18 at 0, where the frame after would have such a payload.
    if unreadable(object.len()) {
        return Err(refused(18, 0, &[]));
    }
    Ok(reframed(frame, &object))
}
