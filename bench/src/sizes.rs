//! The room that a frame needs (W-206). The Rust has no such call, and a few nanoseconds that are the same for every length are no
//! matter for a ratio: the line says them as they are, and how many steps the way before has.

use crate::clock::{fastest, timed};
use crate::lines::MB;
use crate::CALLS;
use lattrugone::port;
use std::hint::black_box;

/// The way before, as it was written: a step for each continuation that another follows. The size, and how many steps. It isn't
/// timed: a compiler makes a division of such a loop, and made one of the port's.
fn stepped(payload_len: usize) -> (usize, usize) {
    let (mut left, mut framing, mut steps) = (payload_len - 32_761, 8, 0);
    while 32_765 < left {
        left -= 32_765;
        framing += 2;
        steps += 1;
    }
    (payload_len + framing, steps)
}

/// The nanoseconds of so many calls.
fn calls(payload_len: usize) -> f64 {
    timed(|| {
        for _ in 0..CALLS {
            black_box(port::frame_size(black_box(payload_len)));
        }
    })
}

/// `frame_size` of 4 MB, and of the longest payload that can be asked for.
pub fn print_frame_size(name: &str, repeats: usize) {
    let (size, steps) = stepped(4 * MB);
    assert_eq!(port::frame_size(4 * MB), size);
    assert_eq!(port::frame_size(usize::MAX), usize::MAX);

    let sides = fastest(
        repeats,
        [&mut |_| calls(4 * MB), &mut |_| calls(usize::MAX)],
    );
    let [long, longest] = sides.map(|time| time / CALLS as f64);
    println!("{name:<44} port {long:>9.2} ns, of 2^64 - 1 bytes {longest:.2} ns: one division each; stepping through the chunks, {steps} steps");
}
