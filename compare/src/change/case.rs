//! One call on one input: in a room that is just enough, one that is short by one, a longer one, an empty one.
use super::model::{self, Due};
use super::rust;
use crate::answers::{answered, done, expected, refused, Answer, ANSWER_WORDS};
use crate::lent::Lent;
use crate::port;
use crate::{shown, By, Tally};

/// The longest input, new value and room.
const MOST: usize = 300_000;

/// The two calls that lay bytes down: on data, and on a request's frame.
#[derive(Clone, Copy, PartialEq)]
pub enum Call {
    Param,
    Request,
}

/// A call, and what it is given: data or a frame, the code point and the new bytes.
#[derive(Clone, Copy)]
pub struct Case<'a> {
    pub call: Call,
    pub run: &'a [u8],
    pub code_point: u16,
    pub new: &'a [u8],
}

impl<'a> Case<'a> {
    pub fn param(run: &'a [u8], code_point: u16, new: &'a [u8]) -> Case<'a> {
        Case {
            call: Call::Param,
            run,
            code_point,
            new,
        }
    }

    pub fn request(run: &'a [u8], code_point: u16, new: &'a [u8]) -> Case<'a> {
        let call = Call::Request;
        Case {
            call,
            ..Case::param(run, code_point, new)
        }
    }

    fn name(&self) -> &'static str {
        match self.call {
            Call::Param => "change_param",
            Call::Request => "change_request",
        }
    }

    /// What is due by the model.
    pub fn due(&self) -> Due {
        match self.call {
            Call::Param => model::change_param(self.run, self.code_point, self.new),
            Call::Request => model::change_request(self.run, self.code_point, self.new),
        }
    }

    /// A room that is just enough, or more than enough for what is refused.
    fn enough(&self, due: &Due) -> usize {
        due.as_ref()
            .map_or(self.run.len() + self.new.len() + 8, Vec::len)
    }

    /// What the case is, for the line of a difference: the code point, how many new bytes, another number, the run or its first
    /// bytes.
    pub fn input(&self, number: usize) -> Vec<u8> {
        let code_point = self.code_point.to_be_bytes();
        let numbers = [self.new.len(), number].map(usize::to_be_bytes);
        [&code_point, numbers.as_flattened(), shown(self.run)].concat()
    }
}

/// What is lent to the port, and how many words are.
pub struct Held {
    run: Lent<u8>,
    new: Lent<u8>,
    room: Lent<u8>,
    words: Lent<u64>,
    turn: usize,
    pub lent_words: usize,
}

impl Held {
    pub fn new() -> Held {
        Held {
            run: Lent::new(MOST),
            new: Lent::new(MOST),
            room: Lent::new(MOST),
            words: Lent::new(64),
            turn: 0,
            lent_words: ANSWER_WORDS,
        }
    }

    /// Holds a case to what is due, in a room that is just enough and in turn in another one.
    pub fn hold(&mut self, tally: &mut Tally, by: By, case: Case, due: &Due) {
        let need = case.enough(due);
        self.turn += 1;
        let turn = self.turn.wrapping_mul(0x9E37_79B9_7F4A_7C15) >> 40;
        let other = match turn % 4 {
            0 => 0,
            1 => need + 1 + turn % 45,
            _ => need.saturating_sub(1),
        };
        self.hold_in(tally, by, case, due, &[need, other]);
    }

    /// The same in rooms of each kind.
    pub fn hold_around(&mut self, tally: &mut Tally, by: By, case: Case, due: &Due) {
        let need = case.enough(due);
        let rooms = [0, need.saturating_sub(1), need, need + 1, need + 40];
        self.hold_in(tally, by, case, due, &rooms);
    }

    /// In rooms of so many bytes. 9 comes last, and is the model's. What is laid down is held to the Rust's lists.
    fn hold_in(&mut self, tally: &mut Tally, by: By, case: Case, due: &Due, rooms: &[usize]) {
        self.run.lend_copy(case.run);
        self.new.lend_copy(case.new);
        if case.call == Call::Request {
            tally.dead.note(case.name(), case.run, 0);
        }
        let mut result = Vec::new();
        for room in rooms {
            let (by, due) = match due {
                Err(refusal) => (by, expected(*refusal, self.lent_words)),
                Ok(bytes) if *room < bytes.len() => {
                    let words = refused(9, 0, &[bytes.len() as u64]);
                    (By::Change, expected(words, self.lent_words))
                }
                Ok(bytes) => {
                    let words = done(&[bytes.len() as u64]);
                    (by, expected(words, self.lent_words).laying(bytes))
                }
            };
            let laid = due.bytes_laid();
            let port = self.make(case, *room, laid);
            if laid > 0 {
                result = port.parts().2.to_vec();
            }
            tally.held(by, case.name(), &case.input(*room), port, due);
        }
        if !result.is_empty() {
            rust::lists(tally, case, &result);
        }
    }

    /// Makes the call in a room of so many bytes, where it is to lay so many down.
    fn make(&mut self, case: Case, room: usize, laid: usize) -> Answer {
        let (run, new, room) = (self.run.again(), self.new.again(), self.room.lend(room));
        let port = answered(&mut self.words, self.lent_words, |words| match case.call {
            Call::Param => port::change_param(run, case.code_point, new, room, words),
            Call::Request => port::change_request(run, case.code_point, new, room, words),
        });
        port.with_room(&self.room, 0, laid)
            .with_run(&self.run, case.run)
            .with_run(&self.new, case.new)
    }

    /// How many bytes changing data would lay down, of so many new ones.
    pub fn hold_len(&mut self, tally: &mut Tally, data: &[u8], code_point: u16, new_len: usize) {
        let due = match model::change_param_len(data, code_point, new_len) {
            Ok(need) => done(&[need]),
            Err(refusal) => refusal,
        };
        let run = self.run.lend_copy(data);
        let port = answered(&mut self.words, self.lent_words, |words| {
            port::change_param_len(run, code_point, new_len, words)
        });
        let port = port.with_run(&self.run, data);
        let input = [
            &code_point.to_be_bytes(),
            &new_len.to_be_bytes()[..],
            shown(data),
        ];
        let due = expected(due, self.lent_words);
        tally.held(By::Change, "change_param_len", &input.concat(), port, due);
    }
}
