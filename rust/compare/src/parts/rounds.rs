//! Rounds without end: each is made by its seed and number alone, so that one can be made again.

use super::{damage, foreign, recalled, records, Part};
use crate::chance::Chance;
use crate::trial::Trial;

/// The first of them, in which a wrong worker has to be found.
pub const FIRST: Part = Part { name: "the first rounds", floor: 8_000, tries: first };

const FIRST_ROUNDS: u64 = 2_000;

fn first(trial: &mut Trial) {
    for number in 0..FIRST_ROUNDS {
        round(trial, 1, number);
    }
}

pub fn round(trial: &mut Trial, seed: u64, number: u64) {
    trial.source = format!("seed {seed} round {number}");
    let chance = &mut Chance::of_round(seed, number);
    match chance.below(5) {
        0 => recalled::round(trial, chance),
        1 => damage::table_round(trial, chance),
        2 => damage::code_round(trial, chance),
        3 => records::round(trial, chance),
        _ => foreign::round(trial, chance),
    }
}
