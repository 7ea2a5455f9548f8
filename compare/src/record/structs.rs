//! Rows of sixteen structs: the calls that fill them are no exported ones. What the Rust gives stands in words, as for the exported
//! calls; a record that a call leaves as it was is blank, and counts too.
use super::{Asked, List};
use crate::answers::Words;
use crate::rows::{Listed, Record};

/// So many records has a row.
const ROWS: usize = 16;

/// So many records: one less than there is place for, just as many, one more.
pub const AROUND: [usize; 3] = [15, 16, 17];

/// The records that replay lends, in words: a frame's, which is an entry's too, and an object's.
const BLANK_FRAME: Record = [0, 99, 5, 0x74, 9, 99, 0, 0, 99, 98];
const BLANK_OBJECT: Words = [0, 0, 9, 1, 99, 99, 99, 0];

/// A call that fills a row, over structs: all frames, the salvage reading, all objects, all parameters. In a room that is just
/// enough, or in turn short by one, longer, or none. 9 has this place.
pub fn rows<const WIDTH: usize>(
    list: &mut List,
    asked: Asked,
    place: usize,
    all: &Listed<WIDTH>,
    turn: usize,
) {
    let asked = asked.over_structs();
    let (need, _) = all.needs();
    let room = [need, need.saturating_sub(1), need, need + 3, need, 0][turn % 6];
    let row_len = WIDTH * ROWS;
    let answer = all.answer(place, room, row_len, asked.lent_words());
    let (number, words, laid, records) = answer.parts();
    let blank = match asked.call {
        160 | 161 => &BLANK_FRAME[..],
        _ => &BLANK_OBJECT[..],
    };
    assert!(blank.len() == WIDTH, "a blank record of another length");
    let mut row = records.to_vec();
    while row.len() < row_len {
        row.extend(blank);
    }
    let asked = asked.room(room).row(row_len);
    list.push(asked, number as u64, words, (0, laid), &row);
}
