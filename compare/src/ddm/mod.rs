//! Module 4 of document 01: lengths, markers, objects, parameters, the builder. The port's functions against the Rust's ddm.rs.
mod builder;
pub mod building;
mod case;
pub mod lengths;
pub mod lists;
pub mod markers;
mod numbers;
mod objects;
pub mod params;
pub mod record;
mod rows;
pub mod rust;

use crate::{Chance, Tally};
use case::Held;

pub fn compare(tally: &mut Tally, chance: &mut Chance, cases: u64) {
    let mut held = Held::new();
    let held = &mut held;
    lengths::raws(tally, held, chance);
    lengths::fitting(tally, held, chance);
    lengths::extended(tally, held, chance);
    lengths::long_headers(tally, held, chance);
    markers::edges(tally, held, chance);
    markers::beside(tally, held, chance);
    markers::others(tally, held, chance);
    lists::short(tally, held);
    lists::few_words(tally, held);
    lists::many(tally, held);
    numbers::read_all(tally, held);
    numbers::total_lengths(tally);
    builder::edges(tally, held, chance);
    builder::numbers(tally, held);
    builder::marks(tally, held);
    for case in 0..cases {
        lists::random(tally, held, chance);
        numbers::random(tally, held, chance);
        builder::random(tally, held, chance);
        if case % 16 == 0 {
            markers::random(tally, held, chance);
            builder::one_behind_the_other(tally, held, chance);
        }
    }
}
