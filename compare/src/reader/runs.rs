//! Random runs of up to six frames around every edge, and how they are damaged and cut.
use super::long::{continued, written, AROUND, EDGES, RAWS};
use super::short::frame;
use crate::Chance;

/// A run, and where its heads and its continuations start.
pub struct Run {
    pub bytes: Vec<u8>,
    pub heads: Vec<usize>,
}

/// Up to six frames; one that is long among them once in so many runs.
pub fn random(chance: &mut Chance, times: usize) -> Run {
    let mut run = Run {
        bytes: Vec::new(),
        heads: Vec::new(),
    };
    let frames = chance.below(7);
    let mut longs = match chance.below(times) {
        0 => 1 + chance.below(3),
        _ => 0,
    };
    let mut kind = 1 + chance.below(5) as u8;
    for _ in 0..frames {
        if longs > 0 && chance.below(2) == 0 {
            longs -= 1;
            run.long(chance);
        } else {
            kind = run.short(chance, kind);
        }
    }
    run
}

/// The first bytes of payloads that the rules look at.
const STARTS: [&[u8]; 12] = [
    &[],
    &[0x80],
    &[0x04, 0x24, 0x1B],
    &[0x80, 0x04],
    &[0x80, 0x04, 0x24, 0x1B],
    &[0x7F, 0xFE],
    &[0x7F, 0xFF],
    &[0xFE],
    &[0x00, 0x04, 0x24, 0x14],
    &[0x00, 0x05, 0x24, 0x14],
    &[0x00, 0x08, 0x01, 0x00],
    &[0x00, 0x09, 0x01, 0x01],
];

/// Mostly same correlation, as only then anything is absorbed.
fn random_flags(chance: &mut Chance) -> u8 {
    match chance.below(4) {
        0 => chance.byte() & 0xF0,
        _ => chance.byte() & 0x70 | 0x10,
    }
}

impl Run {
    /// A short frame behind the others, mostly of the type before it or of an object: its type.
    fn short(&mut self, chance: &mut Chance, before: u8) -> u8 {
        let kind = match chance.below(16) {
            0 => chance.byte() & 15,
            1..=3 => 1 + chance.below(5) as u8,
            4..=8 => 3,
            _ => before,
        };
        let mut payload = STARTS[chance.below(STARTS.len())].to_vec();
        for _ in 0..chance.below(10) {
            payload.push([0x7F, 0xFE, 0xFF, 0x80, 0x04, 0, 0xC1][chance.below(7)]);
        }
        let says = payload.len() as u16 + 6;
        let length = match chance.below(32) {
            0 => chance.below(6) as u16,
            1 => says.wrapping_add(chance.below(5) as u16).wrapping_sub(2),
            2 => RAWS[chance.below(RAWS.len())],
            _ => says,
        };
        let format = kind + random_flags(chance);
        let correlation = chance.below(3) as u16;
        self.push(&frame(length, format, correlation, &payload));
        kind
    }

    /// A long frame behind the others: as the Rust writes it around an edge, with continuations of random raw lengths, or of
    /// one segment.
    fn long(&mut self, chance: &mut Chance) {
        let kind = [2, 3, 5][chance.below(3)];
        let format = kind + random_flags(chance);
        match chance.below(3) {
            0 => {
                let len = EDGES[chance.below(3)] - AROUND + chance.below(2 * AROUND + 1);
                let payload = chance.bytes(len);
                self.push(&written(kind, chance.below(2) == 0, &payload));
            }
            1 => {
                let full = [0x7FFF, 0xFFFF][chance.below(2)];
                let last = RAWS[chance.below(RAWS.len())];
                let raws = [full, 0xFFFF, last];
                let from = chance.below(3);
                let (bytes, places) = continued(chance, format, &raws[from..]);
                let start = self.bytes.len();
                self.push(&bytes);
                self.heads.extend(places.iter().map(|place| start + place));
            }
            _ => {
                let length = [0x7FFE, 0x7FFF, 0x8000, 0xFFFE][chance.below(4)];
                let mut payload = chance.bytes(length as usize - 6);
                let start = STARTS[chance.below(STARTS.len())];
                payload[..start.len()].copy_from_slice(start);
                self.push(&frame(length, format, 1, &payload));
            }
        }
    }

    fn push(&mut self, bytes: &[u8]) {
        self.heads.push(self.bytes.len());
        self.bytes.extend_from_slice(bytes);
    }

    /// A byte changed, mostly one of a head or just behind it.
    pub fn damage(&mut self, chance: &mut Chance) {
        let len = self.bytes.len();
        if len == 0 {
            return;
        }
        let place = match chance.below(4) {
            0 => chance.below(len),
            _ => self.place(chance, 12).min(len - 1),
        };
        self.bytes[place] = match chance.below(3) {
            0 => self.bytes[place] ^ (1 << chance.below(8)),
            1 => [0, 1, 5, 6, 0x7F, 0x80, 0xD0, 0xFE, 0xFF][chance.below(9)],
            _ => chance.byte(),
        };
    }

    /// A place within so many bytes behind a head's start.
    pub fn place(&self, chance: &mut Chance, within: usize) -> usize {
        match self.heads.len() {
            0 => 0,
            heads => self.heads[chance.below(heads)] + chance.below(within),
        }
    }
}
