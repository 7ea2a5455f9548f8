//! Answers in words: document 01's number, the place, then a refusal's values or the result. The Rust's errors become numbers
//! here, and a call that answers in words is made here.
use crate::hex;
use crate::lent::Lent;
use db2_proto::ProtoError;
pub use lattrugone::port::{Words, ANSWER_WORDS};
use std::fmt::{Debug, Formatter};

/// Done, with a result of up to six words.
pub fn done(result: &[u64]) -> Words {
    let mut words = [0; ANSWER_WORDS];
    words[2..2 + result.len()].copy_from_slice(result);
    words
}

/// A refusal at a place, with its values.
pub fn refused(number: u64, place: u64, values: &[u64]) -> Words {
    let mut words = done(values);
    words[0] = number;
    words[1] = place;
    words
}

/// The Rust's error as a refusal: it gives no place, the caller knows it.
pub fn of_error(error: &ProtoError, place: u64) -> Words {
    match error {
        ProtoError::InvalidMagic(byte) => refused(2, place, &[*byte as u64]),
        ProtoError::InvalidDssType(low) => refused(3, place, &[*low as u64]),
        ProtoError::BufferTooShort { expected, actual } => {
            refused(4, place, &[*expected as u64, *actual as u64])
        }
        other => panic!("an error that has no number: {other:?}"),
    }
}

/// What a call came to, as it is compared.
#[derive(PartialEq, Debug)]
pub struct Answer {
    number: u8,
    words: Vec<u64>,
    /// The bytes laid down in the room.
    room: Bytes,
    /// The words laid down in a row of records.
    row: Vec<u64>,
    /// Whether all else is as it was: in and beside the words, the room, the row, the run.
    rest_kept: bool,
}

/// Bytes of which a few are shown, and of more than those also how many they are and a sum that tells them apart.
#[derive(PartialEq, Default)]
pub struct Bytes(pub Vec<u8>);

/// As many are shown.
const SHOWN: usize = 24;

impl Debug for Bytes {
    fn fmt(&self, out: &mut Formatter) -> std::fmt::Result {
        if self.0.len() <= SHOWN {
            return write!(out, "{}", hex(&self.0));
        }
        let sum = |sum: u64, b: &u8| sum.wrapping_mul(0x100_0000_01B3) ^ *b as u64;
        let (shown, sum) = (hex(&self.0[..SHOWN]), self.0.iter().fold(0, sum));
        write!(out, "{shown}.. ({} bytes, sum {sum:016X})", self.0.len())
    }
}

/// What the port should come to where `words` words are lent: an answer's are laid down where they have room.
pub fn expected(answer: Words, words: usize) -> Answer {
    Answer {
        number: answer[0] as u8,
        words: if words < ANSWER_WORDS {
            Vec::new()
        } else {
            answer.to_vec()
        },
        room: Bytes::default(),
        row: Vec::new(),
        rest_kept: true,
    }
}

/// Makes a call with so many words lent.
pub fn answered(lent: &mut Lent<u64>, words: usize, call: impl FnOnce(&mut [u64]) -> u8) -> Answer {
    let lent_words = lent.lend(words);
    let number = call(lent_words);
    let laid = if words < ANSWER_WORDS {
        Vec::new()
    } else {
        lent_words[..ANSWER_WORDS].to_vec()
    };
    let rest_kept = lent.holds_only(0, &laid);
    Answer {
        number,
        words: laid,
        room: Bytes::default(),
        row: Vec::new(),
        rest_kept,
    }
}

impl Answer {
    /// Whether it is one that the Rust never gives: 7 and 8 where it stops or loses bits, 9 of lent room, 10 of positions, 16
    /// where it only says that a frame isn't whole.
    pub fn only_in_document(&self) -> bool {
        matches!(self.number, 7..=10 | 16)
    }

    /// Besides, these bytes laid down.
    pub fn laying(mut self, bytes: &[u8]) -> Answer {
        self.room = Bytes(bytes.to_vec());
        self
    }

    /// How many bytes are laid down.
    pub fn bytes_laid(&self) -> usize {
        self.room.0.len()
    }

    /// Besides, these words laid down in a row.
    pub fn listing(mut self, words: &[u64]) -> Answer {
        self.row = words.to_vec();
        self
    }

    /// How many words are laid down in a row.
    pub fn words_listed(&self) -> usize {
        self.row.len()
    }

    /// Besides, so many words at the start of a lent row, and all others kept.
    pub fn with_row(self, row: &Lent<u64>, laid: usize) -> Answer {
        let words = row.part(0, laid);
        let kept = row.holds_only(0, words);
        self.listing(words).and(kept)
    }

    /// Besides, so many bytes of a lent room from a place on, and all others kept.
    pub fn with_room(self, room: &Lent<u8>, at: usize, laid: usize) -> Answer {
        // Where nothing is laid down, the place can be beyond the room.
        let at = if laid == 0 { 0 } else { at };
        let bytes = room.part(at, laid);
        let kept = room.holds_only(at, bytes);
        self.laying(bytes).and(kept)
    }

    /// Besides, that a run that was lent to be read is as it was.
    pub fn with_run(self, run: &Lent<u8>, bytes: &[u8]) -> Answer {
        let kept = run.holds_only(0, bytes);
        self.and(kept)
    }

    /// The number, the words, the bytes laid down in the room, the words laid down in a row.
    pub fn parts(&self) -> (u8, &[u64], &[u8], &[u64]) {
        (self.number, &self.words, &self.room.0, &self.row)
    }

    fn and(mut self, kept: bool) -> Answer {
        self.rest_kept = self.rest_kept && kept;
        self
    }
}
