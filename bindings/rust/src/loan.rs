//! What is lent to a call: room for its result, and words for its answer.
use crate::error::Refusal;
use crate::port::{Words, ANSWER_WORDS};

type Answer<T> = std::result::Result<T, Refusal>;

/// Makes a call that needs no room.
pub(crate) fn ask(call: impl FnOnce(&mut [u64]) -> u8) -> Answer<Words> {
    let mut words = [0; ANSWER_WORDS];
    match call(&mut words) {
        0 => Ok(words),
        _ => Err(Refusal(words)),
    }
}

/// Makes a call that lays so many bytes down behind those of a buffer, as the call itself says they are.
pub(crate) fn append(
    buffer: &mut Vec<u8>,
    size: usize,
    call: impl FnOnce(usize, &mut [u8], &mut [u64]) -> u8,
) {
    let fill = buffer.len();
    buffer.resize(fill.saturating_add(size), 0);
    // Refused is a mark beyond the buffer, or too little room: neither is the case here.
    ask(|words| call(fill, buffer, words)).expect("the room that it takes is lent");
}

/// What a call lays down that is refused for want of room alone.
pub(crate) fn built(call: impl FnMut(&mut Loan) -> u8) -> Vec<u8> {
    Loan::of(call).expect("the room that it takes is lent").room
}

/// The room and the row of a call that was done, with just as much as it needed, and its answer's words. A record of the row has so
/// many words, 0 where the call has no row.
#[derive(Default)]
pub(crate) struct Loan<const WIDTH: usize = 0> {
    pub room: Vec<u8>,
    pub row: Vec<u64>,
    pub words: Words,
}

impl<const WIDTH: usize> Loan<WIDTH> {
    /// Makes a call, first with nothing lent, which only measures; where that says what is needed, again with that.
    pub fn of(mut call: impl FnMut(&mut Self) -> u8) -> Answer<Self> {
        match Self::default().after(&mut call) {
            Err(refusal) if refusal.is_no_room() => {
                let [_, _, bytes, records, ..] = refusal.0;
                let loan = Self {
                    room: vec![0; bytes as usize],
                    row: vec![0; (records as usize).saturating_mul(WIDTH)],
                    words: [0; ANSWER_WORDS],
                };
                loan.after(&mut call)
            }
            found => found,
        }
    }

    fn after(mut self, call: &mut impl FnMut(&mut Self) -> u8) -> Answer<Self> {
        match call(&mut self) {
            0 => Ok(self),
            _ => Err(Refusal(self.words)),
        }
    }

    /// The row's records.
    pub fn records(&self) -> impl Iterator<Item = &[u64; WIDTH]> {
        let record = |words| <&[u64; WIDTH]>::try_from(words).expect("a chunk of that length");
        self.row.chunks_exact(WIDTH).map(record)
    }
}
