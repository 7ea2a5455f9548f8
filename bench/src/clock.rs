//! Timing: several sides of one line, in turn, and of each the fastest of many repeats.

use crate::lines::MB;
use std::hint::black_box;
use std::time::Instant;

/// The nanoseconds that a call takes.
pub fn timed(call: impl FnOnce()) -> f64 {
    let start = Instant::now();
    call();
    start.elapsed().as_nanos() as f64
}

/// Reads a byte of each line of the cache.
fn touch(bytes: &[u8]) {
    let sum = bytes
        .iter()
        .step_by(64)
        .fold(0, |sum: u8, b| sum.wrapping_add(*b));
    black_box(sum);
}

/// Input and room that are lent. How they lie to each other decides some of the time: a load waits for an earlier store whose
/// address ends in the same twelve bits. The Rust's room lies elsewhere in each repeat; so these are several, each room at
/// another distance in such twelve bits, and they take turns. From 1 MB on they are one, since several would push each other
/// out of the cache.
pub struct Lent(Vec<Place>);

struct Place {
    input: Vec<u8>,
    room: Vec<u8>,
    /// Where the part of the room that is lent starts.
    start: usize,
    len: usize,
}

const PAGE: usize = 4096;

impl Place {
    /// A copy of an input, with room for so many bytes at a distance, all written.
    fn new(input: &[u8], len: usize, distance: usize) -> Self {
        let input = input.to_vec();
        let room = vec![1; len + PAGE];
        let lies = (room.as_ptr() as usize).wrapping_sub(input.as_ptr() as usize) % PAGE;
        let start = (distance + PAGE - lies) % PAGE;
        Self {
            input,
            room,
            start,
            len,
        }
    }
}

impl Lent {
    /// Copies of an input, each with room for so many bytes.
    pub fn new(input: &[u8], room: usize) -> Self {
        let places = if input.len() < MB { 8 } else { 1 };
        let apart = PAGE / places;
        let distance = |n: usize| n * apart + apart / 2;
        Self(
            (0..places)
                .map(|n| Place::new(input, room, distance(n)))
                .collect(),
        )
    }

    /// Those of a repeat, touched.
    pub fn turn(&mut self, repeat: usize) -> (&[u8], &mut [u8]) {
        let n = repeat % self.0.len();
        let place = &mut self.0[n];
        let room = &mut place.room[place.start..place.start + place.len];
        touch(&place.input);
        touch(room);
        (&place.input, room)
    }
}

/// A side of a line: readies itself, and gives the nanoseconds of the part that is timed. It is told which repeat it is.
pub type Side<'a> = &'a mut dyn FnMut(usize) -> f64;

/// The fastest of so many repeats of each side. The sides take turns, and another one begins each time.
pub fn fastest<const N: usize>(repeats: usize, sides: [Side; N]) -> [f64; N] {
    let mut best = [f64::INFINITY; N];
    for repeat in 0..repeats {
        for turn in 0..N {
            let side = (turn + repeat) % N;
            best[side] = best[side].min(sides[side](repeat));
        }
    }
    best
}
