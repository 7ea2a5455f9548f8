//! Frames: `next_frame`, measuring and taking, `read_all_frames` and the writer.

use crate::clock::{fastest, timed, Lent};
use crate::lines::{goal, Line};
use crate::WORDS;
use db2_proto::dss::{DssReader, DssWriter};
use lattrugone::port::{self, Words, RECORD_WORDS};
use std::hint::black_box;

/// The number of the reader's rules.
const READER: u8 = 0;

/// A call of the port for one frame: told a run and a position, lent a room and words.
trait Call: Fn(&[u8], usize, &mut [u8], &mut Words) -> u8 {}
impl<F: Fn(&[u8], usize, &mut [u8], &mut Words) -> u8> Call for F {}

/// Where the frames of a run end and how long their payloads are, as both sides read them. A call that takes lays the payloads down.
fn ends(run: &[u8], room: &mut [u8], takes: bool, call: &impl Call) -> Vec<(usize, usize)> {
    let mut found = Vec::new();
    let mut reader = DssReader::new(run.to_vec());
    let mut words = WORDS;
    let mut at = 0;
    while let Some(frame) = reader.next_frame().unwrap() {
        assert_eq!(call(run, at, room, &mut words), 0);
        let [_, end, _, _, _, len, _, _] = words.map(|word| word as usize);
        assert_eq!(len, frame.payload.len());
        assert!(!takes || room[..len] == frame.payload);
        assert_eq!(end + reader.remaining(), run.len());
        found.push((end, len));
        at = end;
    }
    found
}

/// The Rust's `next_frame` until a run has no more, and a call of the port. A line's time is that of the whole run.
fn frame_by_frame(name: &str, repeats: usize, run: &[u8], takes: bool, call: impl Call) -> Line {
    let found = ends(run, &mut vec![1; run.len()], takes, &call);
    let largest = found.iter().map(|&(_, len)| len).max().unwrap();
    let mut to_port = Lent::new(run, largest);
    let mut to_memcpy = Lent::new(run, largest);

    let [rust, port, memcpy] = fastest(
        repeats,
        [
            &mut |_| {
                let mut reader = DssReader::new(run.to_vec());
                timed(|| {
                    while let Ok(Some(frame)) = reader.next_frame() {
                        black_box(&frame);
                    }
                })
            },
            &mut |repeat| {
                let (run, room) = to_port.turn(repeat);
                let mut words = WORDS;
                timed(|| {
                    let mut at = 0;
                    while call(run, at, room, &mut words) == 0 {
                        at = words[1] as usize;
                        black_box(&room);
                    }
                })
            },
            &mut |repeat| {
                let (run, room) = to_memcpy.turn(repeat);
                timed(|| {
                    for &(end, len) in &found {
                        room[..len].copy_from_slice(&run[end - len..end]);
                        black_box(&room);
                    }
                })
            },
        ],
    );
    Line {
        name: name.to_string(),
        rust,
        port,
        memcpy: takes.then_some(memcpy),
        goal: goal(largest),
    }
}

/// `next_frame` on both sides.
pub fn next_frame(name: &str, repeats: usize, run: &[u8]) -> Line {
    frame_by_frame(name, repeats, run, true, |run, at, room, words| {
        port::next_frame(run, at, room, words)
    })
}

/// `measure_frame`. To know how long a payload is, the Rust's user reads it.
pub fn measure(name: &str, repeats: usize, run: &[u8]) -> Line {
    frame_by_frame(name, repeats, run, false, |run, at, _, words| {
        port::measure_frame(READER, run, at, words)
    })
}

/// `take_frame`.
pub fn take(name: &str, repeats: usize, run: &[u8]) -> Line {
    frame_by_frame(name, repeats, run, true, |run, at, room, words| {
        port::take_frame(READER, run, at, room, words)
    })
}

/// The one, then the other with just the room that was measured.
pub fn measure_then_take(name: &str, repeats: usize, run: &[u8]) -> Line {
    frame_by_frame(
        name,
        repeats,
        run,
        true,
        |run, at, room, words| match port::measure_frame(READER, run, at, words) {
            0 => port::take_frame(READER, run, at, &mut room[..words[5] as usize], words),
            number => number,
        },
    )
}

/// `read_all_frames` on a run of small frames.
pub fn read_all_frames(name: &str, repeats: usize, run: &[u8]) -> Line {
    let frames = DssReader::new(run.to_vec()).read_all_frames().unwrap();
    let mut room = vec![1; run.len()];
    let mut row = vec![1u64; RECORD_WORDS * frames.len()];
    let mut words = WORDS;
    assert_eq!(
        port::read_all_frames(run, 0, &mut room, &mut row, &mut words),
        0
    );
    let joined: Vec<u8> = frames.iter().flat_map(|f| f.payload.clone()).collect();
    assert_eq!(
        words[..4],
        [
            0,
            run.len() as u64,
            frames.len() as u64,
            joined.len() as u64
        ]
    );
    assert!(room[..joined.len()] == joined);
    let mut to_port = Lent::new(run, joined.len());

    let [rust, port] = fastest(
        repeats,
        [
            &mut |_| {
                let mut reader = DssReader::new(run.to_vec());
                timed(|| {
                    black_box(reader.read_all_frames().unwrap());
                })
            },
            &mut |repeat| {
                let (run, room) = to_port.turn(repeat);
                timed(|| {
                    port::read_all_frames(run, 0, room, &mut row, &mut words);
                    black_box((&room, &row, &words));
                })
            },
        ],
    );
    Line {
        name: name.to_string(),
        rust,
        port,
        memcpy: None,
        goal: goal(run.len()),
    }
}

/// A writer that is made, writes a frame and hands out its bytes; so many times a repeat.
pub fn write(name: &str, repeats: usize, times: usize, payload: &[u8]) -> Line {
    let mut writer = DssWriter::new(7);
    writer.write_object(payload, false);
    let written = writer.finish();
    let mut room = vec![1; written.len()];
    let mut words = WORDS;
    assert_eq!(
        port::write_object(7, 0, 0, payload, &mut room, &mut words),
        0
    );
    assert_eq!(words[3] as usize, written.len());
    assert!(room == written);
    let mut to_rust = Lent::new(payload, 0);
    let mut to_port = Lent::new(payload, written.len());

    let [rust, port] = fastest(
        repeats,
        [
            &mut |repeat| {
                let (payload, _) = to_rust.turn(repeat);
                timed(|| {
                    for _ in 0..times {
                        let mut writer = DssWriter::new(7);
                        writer.write_object(black_box(payload), false);
                        black_box(writer.finish());
                    }
                })
            },
            &mut |repeat| {
                let (payload, room) = to_port.turn(repeat);
                timed(|| {
                    for _ in 0..times {
                        port::write_object(7, 0, 0, black_box(payload), room, &mut words);
                        black_box((&room, &words));
                    }
                })
            },
        ],
    );
    Line {
        name: name.to_string(),
        rust: rust / times as f64,
        port: port / times as f64,
        memcpy: None,
        goal: goal(payload.len()),
    }
}
