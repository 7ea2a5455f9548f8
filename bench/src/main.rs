//! bench [REPEATS] [ONLY]: times each call of the port beside the Rust's on the same input, in turn, and prints the ratio of
//! the fastest of REPEATS repeats, a quarter of that on 4 MB; last `worst R`, the worst ratio. ONLY picks the lines with that
//! word. The line of `frame_size` has no ratio.
//!
//! What is timed. Of the Rust, the call with the results that it allocates and their release, which is what its user pays; a
//! reader owns its bytes, and is made just before. Of the port, the call, which lays its results into lent room; input, room,
//! row and words were written before, and input and room are touched just before. A memcpy copies the same payload bytes from
//! the run into lent room, as the port does.

mod change;
mod clock;
mod frames;
mod inputs;
mod lines;
mod objects;
mod sizes;

use frames::{measure, measure_then_take, next_frame, read_all_frames, take, write};
use lattrugone::port::{Words, ANSWER_WORDS};
use lines::{print_growth, Line, MB};
use objects::{build, find, markers, object, parameters};

/// How often a call that takes a microsecond or less is made in one repeat.
const CALLS: usize = 100;

/// What a call of the port writes its answer into.
const WORDS: Words = [0; ANSWER_WORDS];

/// A line's name, and what times it.
type Plan = (&'static str, fn(&str, usize) -> Line);

const PLAN: [Plan; 24] = [
    ("next_frame, 600 frames of 100 bytes", |name, n| {
        next_frame(name, n, &inputs::frames(600, 100))
    }),
    ("next_frame, 16 frames of 32 KB", |name, n| {
        next_frame(name, n, &inputs::frames(16, 32_761))
    }),
    ("next_frame, 1 MB", |name, n| {
        next_frame(name, n, &inputs::frames(1, MB))
    }),
    ("next_frame, 4 MB", |name, n| {
        next_frame(name, n / 4, &inputs::frames(1, 4 * MB))
    }),
    ("measure_frame, 600 frames of 100 bytes", |name, n| {
        measure(name, n, &inputs::frames(600, 100))
    }),
    ("measure_frame, 1 MB", |name, n| {
        measure(name, n, &inputs::frames(1, MB))
    }),
    ("take_frame, 600 frames of 100 bytes", |name, n| {
        take(name, n, &inputs::frames(600, 100))
    }),
    ("take_frame, 1 MB", |name, n| {
        take(name, n, &inputs::frames(1, MB))
    }),
    ("measure, then take, 600 frames of 100 bytes", |name, n| {
        measure_then_take(name, n, &inputs::frames(600, 100))
    }),
    ("measure, then take, 1 MB", |name, n| {
        measure_then_take(name, n, &inputs::frames(1, MB))
    }),
    ("read_all_frames, 64 KiB of small frames", |name, n| {
        read_all_frames(name, n, &inputs::frames(618, 100))
    }),
    ("read_all_frames, 1 MB of small frames", |name, n| {
        read_all_frames(name, n, &inputs::frames(9_893, 100))
    }),
    ("read_all_frames, 4 MB of small frames", |name, n| {
        read_all_frames(name, n / 4, &inputs::frames(39_569, 100))
    }),
    ("write, 100 bytes", |name, n| {
        write(name, n, CALLS, &inputs::noise(100))
    }),
    ("write, 32 KB", |name, n| {
        write(name, n, CALLS, &inputs::noise(32_761))
    }),
    ("write, 4 MB", |name, n| {
        write(name, n / 4, 1, &inputs::noise(4 * MB))
    }),
    ("object, a reply with 40 parameters", object),
    ("parameters, all 40", parameters),
    ("find_param, the first of 40", |name, n| {
        find(name, n, inputs::PARAMS.start)
    }),
    ("find_param, the last of 40", |name, n| {
        find(name, n, inputs::PARAMS.end - 1)
    }),
    ("build, an object with 40 parameters", build),
    ("marker removal, 4 MB", |name, n| {
        markers(name, n / 4, &inputs::marked(4 * MB))
    }),
    ("change one parameter among 40", change::param),
    ("change a request with 40 parameters", change::request),
];

/// What the Rust has no call for, and no way of doing that a ratio could be to.
const SIZE: &str = "frame_size of 4 MB";

/// What is timed on 1 MB and on 4 MB.
const GROWING: [&str; 2] = ["next_frame", "read_all_frames"];

fn main() {
    let mut words = std::env::args().skip(1);
    let repeats: usize = words.next().map_or(4000, |n| n.parse().unwrap());
    let only = words.next().unwrap_or_default();

    let mut lines = Vec::new();
    for (name, plan) in PLAN.iter().filter(|(name, _)| name.contains(&only)) {
        let line = plan(name, repeats);
        line.print();
        lines.push(line);
    }
    if SIZE.contains(&only) {
        sizes::print_frame_size(SIZE, repeats);
    }
    for call in GROWING {
        let of = |size: &str| {
            lines
                .iter()
                .find(|line| line.name.starts_with(&format!("{call}, {size}")))
        };
        if let (Some(small), Some(large)) = (of("1 MB"), of("4 MB")) {
            print_growth(call, small, large);
        }
    }
    if let Some(worst) = lines.iter().map(Line::ratio).reduce(f64::max) {
        println!("worst {worst:.2}");
    }
}
