//! What the tests share.
#![allow(dead_code)]

/// Bytes written as hexadecimal digits, spaces between them as one likes.
pub fn hex(digits: &str) -> Vec<u8> {
    let digits: Vec<u32> = digits.chars().filter_map(|c| c.to_digit(16)).collect();
    digits
        .chunks(2)
        .map(|two| (two[0] * 16 + two[1]) as u8)
        .collect()
}

/// So many bytes, another at each place.
pub fn pattern(len: usize) -> Vec<u8> {
    (0..len).map(|at| (at * 31 + at / 256) as u8).collect()
}

/// A frame of so many full segments, and behind them, as its last two bytes, the length of another: with 0 or 1 it is never whole.
pub fn full_segments(segments: usize, next: u16) -> Vec<u8> {
    let mut frame = [hex("FFFF D003 0001"), pattern(32761)].concat();
    for _ in 1..segments {
        frame.extend([hex("FFFF"), pattern(32765)].concat());
    }
    frame.extend(next.to_be_bytes());
    frame
}

/// Numbers that look random and are the same each time.
pub struct Numbers(pub u64);

impl Numbers {
    /// One below a limit.
    pub fn below(&mut self, limit: usize) -> usize {
        self.0 = self
            .0
            .wrapping_mul(6364136223846793005)
            .wrapping_add(1442695040888963407);
        ((self.0 >> 33) as usize) % limit
    }

    pub fn yes(&mut self) -> bool {
        self.below(2) == 1
    }

    pub fn bytes(&mut self, len: usize) -> Vec<u8> {
        (0..len).map(|_| self.below(256) as u8).collect()
    }
}
