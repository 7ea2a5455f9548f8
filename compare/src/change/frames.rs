//! Frames with one object: as the Rust writes them, and cut into segments in each way that its reader takes.
use crate::ddm::lengths::headed;
use crate::writer::call::Call;
use crate::Chance;

/// What a frame has behind its length: magic, format byte, correlation.
pub type Head = [u8; 4];

/// Mostly a request's, with any flags.
pub fn head(chance: &mut Chance) -> Head {
    let kind = match chance.below(4) {
        0 => 1 + chance.below(5) as u8,
        _ => 1,
    };
    let format = chance.byte() & 0xF0 | kind;
    [0xD0, format, chance.byte(), chance.byte()]
}

/// The Rust's frame of a payload; of a type 5 it is a request with that type. The bits 0x20 and 0x80, which it never sets, are set
/// by hand.
pub fn written(head: Head, payload: &[u8]) -> Vec<u8> {
    let [_, format, a, b] = head;
    let (dss_type, flags) = (format, format);
    let call = Call::Full { dss_type, flags };
    let frame = call.rust_frame(u16::from_be_bytes([a, b]), payload);
    let (mut frame, _) = frame.expect("a type");
    frame[3] |= format & 0xA0;
    frame
}

/// A frame, and where its continuations start.
pub struct Cut {
    pub bytes: Vec<u8>,
    pub continuations: Vec<usize>,
}

impl Cut {
    /// A first segment of a raw length with these bytes.
    pub fn first(raw: usize, head: Head, bytes: &[u8]) -> Cut {
        let [a, b] = (raw as u16).to_be_bytes();
        Cut {
            bytes: [&[a, b], &head[..], bytes].concat(),
            continuations: Vec::new(),
        }
    }

    pub fn push(&mut self, raw: usize, bytes: &[u8]) {
        self.continuations.push(self.bytes.len());
        self.bytes.extend((raw as u16).to_be_bytes());
        self.bytes.extend(bytes);
    }

    /// Where a byte of the payload stands.
    pub fn place(&self, at: usize) -> usize {
        let over = |place, start: &usize| if *start <= place { place + 2 } else { place };
        self.continuations.iter().fold(6 + at, over)
    }
}

/// A payload of 32,761 bytes or more in continuations: full ones of raw length 7FFF or FFFF, then one of up to 65,532 bytes, or
/// of none.
pub fn continued(chance: &mut Chance, head: Head, payload: &[u8]) -> Cut {
    let (first, mut rest) = payload.split_at(32_761);
    let mut cut = Cut::first(0xFFFF, head, first);
    loop {
        let raw = rest.len() + 2;
        if raw < 0x7FFF || 0x7FFF < raw && raw < 0xFFFF && chance.below(2) == 0 {
            cut.push(raw, rest);
            return cut;
        }
        let (full, behind) = rest.split_at(32_765);
        cut.push([0x7FFF, 0xFFFF][chance.below(2)], full);
        rest = behind;
    }
}

/// A payload in one segment, or in continuations where it must be, and else at times where it can be.
pub fn cut(chance: &mut Chance, head: Head, payload: &[u8]) -> Cut {
    let len = payload.len();
    if len < 32_761 || len <= 65_528 && chance.below(2) == 0 {
        return Cut::first(len + 6, head, payload);
    }
    continued(chance, head, payload)
}

/// An object or parameter with so many length bytes.
pub fn wide(width: usize, code_point: u16, data: &[u8]) -> Vec<u8> {
    let mut behind = vec![0; width.saturating_sub(8)];
    behind.extend(&data.len().to_be_bytes()[8 - width.min(8)..]);
    behind.extend(data);
    headed(0x8004 + width, code_point, &behind)
}

/// An object of so many bytes in all, of a long parameter 2402 and a short one 2403; with four length bytes also where the
/// builder writes none.
pub fn sized(chance: &mut Chance, total: usize) -> Vec<u8> {
    let long = wide(4, 0x2402, &chance.bytes(total - 23));
    let short = headed(7, 0x2403, &[0xC1, 0xC2, 0xC3]);
    wide(4, 0x2001, &[long, short].concat())
}
