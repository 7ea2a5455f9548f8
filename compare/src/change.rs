//! Changing one parameter, of data and of a request already built: document 02, W-204. The Rust has no such call. What the port
//! lays down is held to the Rust's builder, writer and lists; all else to a model of what is due, on good, cut and damaged
//! input.
mod case;
mod frames;
mod model;
mod params;
mod refusals;
mod requests;
mod rust;
mod values;

use crate::{Chance, Tally};
use case::Held;

/// Once in so many cases there is a request of several segments.
const LONG: u64 = 1024;

pub fn compare(tally: &mut Tally, chance: &mut Chance, cases: u64) {
    let mut held = Held::new();
    let held = &mut held;
    params::short(tally, held);
    params::lengths(tally, held, chance);
    params::needs(tally, held);
    params::few_words(tally, held);
    refusals::spoilt(tally, held);
    refusals::lists(tally, held);
    refusals::objects(tally, held);
    refusals::through(tally, held, chance);
    refusals::behind(tally, held, chance);
    refusals::raws(tally, held, chance);
    refusals::dead(tally, held, chance);
    refusals::few_words(tally, held);
    requests::edges(tally, held, chance);
    for case in 0..cases {
        match case % 2 {
            0 => params::random(tally, held, chance),
            _ => requests::random(tally, held, chance),
        }
        if case % LONG == 0 {
            requests::random_long(tally, held, chance);
        }
    }
}
