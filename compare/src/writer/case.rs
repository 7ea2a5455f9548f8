//! One call in one room: what it should come to, and the comparison.
use super::call::{Call, Frame};
use super::{MOST, ROOM, SPARE};
use crate::answers::{answered, done, expected, of_error, refused, Answer, ANSWER_WORDS};
use crate::lent::Lent;
use crate::port::Loan;
use crate::{Chance, Tally};

/// What is lent to the port, and the bytes that payloads are parts of.
pub struct Held {
    pub payload: Lent<u8>,
    pub room: Lent<u8>,
    pub words: Lent<u64>,
    pub bytes: Vec<u8>,
}

impl Held {
    pub fn new(chance: &mut Chance) -> Held {
        Held {
            payload: Lent::new(MOST),
            room: Lent::new(ROOM),
            words: Lent::new(64),
            bytes: (0..MOST).map(|_| chance.byte()).collect(),
        }
    }
}

/// A call, and what it is given: the writer's correlation and fill mark, of which a builder has only the first, the place and
/// length of the payload, and how many words are lent.
#[derive(Clone, Copy)]
pub struct Case {
    pub call: Call,
    pub id: u16,
    pub fill: usize,
    pub from: usize,
    pub len: usize,
    pub words: usize,
}

impl Case {
    /// What the case is, for the line of a difference: the call's two numbers, then correlation, fill mark, the payload's place
    /// and length, and how long the room is.
    fn input(&self, room: usize) -> Vec<u8> {
        let (_, first, second) = self.call.named();
        let mut input = vec![first, second];
        input.extend(self.id.to_be_bytes());
        for number in [self.fill, self.from, self.len, room] {
            input.extend(number.to_be_bytes());
        }
        input
    }

    /// What the call comes to in a room of so many bytes: 10, then the Rust's refusal of the type, then 9, then its frame.
    pub fn expected(&self, frame: &Frame, room: usize) -> Answer {
        let mark = self.fill as u64;
        let answer = match frame {
            _ if room < self.fill => refused(10, mark, &[mark, room as u64]),
            Err(error) => of_error(error, 0),
            Ok((bytes, _)) if room - self.fill < bytes.len() => {
                refused(9, mark, &[bytes.len() as u64, 0])
            }
            Ok((bytes, id)) => {
                let end = mark + bytes.len() as u64;
                let result = if self.call.builds() {
                    done(&[end])
                } else {
                    done(&[*id as u64, end])
                };
                return expected(result, self.words).laying(bytes);
            }
        };
        expected(answer, self.words)
    }

    /// What the Rust makes of it.
    pub fn frame(&self, held: &Held) -> Frame {
        let payload = &held.bytes[self.from..self.from + self.len];
        self.call.rust_frame(self.id, payload)
    }

    /// Compares in rooms that have so many bytes more than the frame needs, or fewer.
    pub fn hold(&self, tally: &mut Tally, held: &mut Held, spares: &[isize]) {
        let frame = self.frame(held);
        let need = self.fill + frame.as_ref().map_or(0, |(bytes, _)| bytes.len());
        for spare in spares {
            let room = need.saturating_add_signed(*spare);
            self.hold_in(tally, held, &frame, room);
        }
    }

    /// Compares in a room of so many bytes.
    pub fn hold_in(&self, tally: &mut Tally, held: &mut Held, frame: &Frame, room: usize) {
        let rust = self.expected(frame, room);
        let bytes = &held.bytes[self.from..self.from + self.len];
        let payload = held.payload.lend_copy(bytes);
        let lent_room = held.room.lend(room);
        let port = answered(&mut held.words, self.words, |words| {
            let loan = Loan {
                payload,
                room: lent_room,
                words,
            };
            self.call.port(self.id, self.fill, loan)
        });
        let port = port
            .with_room(&held.room, self.fill, rust.bytes_laid())
            .with_run(&held.payload, bytes);
        let (by, name) = (self.call.by(), self.call.named().0);
        tally.answer_by(by, name, &self.input(room), port, rust);
    }
}

/// A call with a payload of so many bytes from anywhere, at a fill mark anywhere where it has one.
pub fn anywhere(chance: &mut Chance, call: Call, id: u16, len: usize) -> Case {
    Case {
        call,
        id,
        fill: if call.builds() {
            0
        } else {
            chance.below(SPARE)
        },
        from: chance.below(MOST - len + 1),
        len,
        words: ANSWER_WORDS,
    }
}
