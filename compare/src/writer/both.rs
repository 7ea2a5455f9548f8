//! One writer through many calls: frames one behind the other in one room, held to one writer of the Rust.
use super::call::{random_call, Call};
use super::case::Held;
use super::{random_length, ROOM};
use crate::answers::{answered, done, expected, of_error, refused, Bytes, ANSWER_WORDS};
use crate::port::{self, Loan};
use crate::{five, Chance, Tally};
use db2_proto::dss::DssWriter;

/// Frames one behind the other in one room, against one writer of the Rust, which keeps them all. At times the correlation goes
/// on or is set; at times both finish and go on. A frame that has no room is refused, and the Rust isn't given it.
pub fn one_behind_the_other(tally: &mut Tally, held: &mut Held, chance: &mut Chance) {
    let (room, times) = match chance.below(48) {
        0 => (ROOM, 4),
        _ => (chance.below(3000), 1 << 20),
    };
    held.room.lend(room);
    let mut both = Both {
        rust: DssWriter::new(7),
        id: 7,
        fill: 0,
        room: held.room.part(0, room).to_vec(),
        no_replies: Vec::new(),
    };
    for _ in 0..4 + chance.below(20) {
        match chance.below(10) {
            0 => {
                both.id = port::next_correlation_id(both.id);
                both.rust.next_correlation_id();
            }
            1 => {
                both.id = chance.next() as u16;
                both.rust.set_correlation_id(both.id);
            }
            2 => both.finish(tally, held),
            _ => {
                let call = random_call(chance);
                if !call.builds() {
                    let len = random_length(chance, times);
                    both.write(tally, held, call, len);
                }
            }
        }
    }
    both.finish(tally, held);
}

/// The Rust's writer, the port's, and what the room should hold; and where frames of type 5 start, of which the Rust's writer has
/// a request's.
struct Both {
    rust: DssWriter,
    id: u16,
    fill: usize,
    room: Vec<u8>,
    no_replies: Vec<usize>,
}

impl Both {
    fn write(&mut self, tally: &mut Tally, held: &mut Held, call: Call, len: usize) {
        let bytes = &held.bytes[..len];
        let before = self.rust.data().len();
        let mut rust = self.rust.clone();
        let answer = match call.rust(&mut rust, bytes) {
            Err(error) => of_error(&error, 0),
            Ok(()) if self.room.len() < rust.data().len() => {
                let need = rust.data().len() - before;
                refused(9, before as u64, &[need as u64, 0])
            }
            Ok(()) => {
                let end = rust.data().len();
                self.room[before..end].copy_from_slice(&rust.data()[before..]);
                if call.no_reply() {
                    five::made(&mut self.room[before..end]);
                    self.no_replies.push(before);
                }
                self.rust = rust;
                done(&[self.rust.correlation_id() as u64, end as u64])
            }
        };
        let payload = held.payload.lend_copy(bytes);
        let room = held.room.again();
        let port = answered(&mut held.words, ANSWER_WORDS, |words| {
            let loan = Loan {
                payload,
                room,
                words,
            };
            call.port(self.id, self.fill, loan)
        });
        let port = port
            .with_room(&held.room, 0, self.room.len())
            .with_run(&held.payload, bytes);
        let rust = expected(answer, ANSWER_WORDS).laying(&self.room);
        let input = [self.id as usize, self.fill, len, self.room.len()].map(usize::to_be_bytes);
        let (by, name) = (call.by(), call.named().0);
        tally.answer_by(by, name, input.as_flattened(), port, rust);
        // The writer that the port hands back writes on.
        if let [0, _, id, fill] = *held.words.part(0, 4) {
            (self.id, self.fill) = (id as u16, fill as usize);
        }
    }

    /// What the Rust hands out is what the room holds up to the port's fill mark; empty again, both keep the correlation.
    fn finish(&mut self, tally: &mut Tally, held: &Held) {
        let filled = held.room.part(0, self.fill.min(self.room.len()));
        let port = (Bytes(filled.to_vec()), self.id);
        let mut bytes = self.rust.finish();
        for at in self.no_replies.drain(..) {
            five::made(&mut bytes[at..]);
        }
        let rust = (Bytes(bytes), self.rust.correlation_id());
        tally.same("finish", &self.fill.to_be_bytes(), port, rust);
        self.fill = 0;
    }
}
