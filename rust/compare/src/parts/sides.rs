//! Calls with all buffers at one kind of place: the guard bytes of each have to notice what is written beside a buffer, and an
//! input that is written has to be noticed everywhere.

use super::damage::every_kind;
use super::recalled::schedule;
use super::{Part, CODE, STACK};
use crate::chance::Chance;
use crate::layout;
use crate::lent::Place;
use crate::places::Places;
use crate::trial::Trial;

pub const FRONT: Part =
    Part { name: "all buffers behind a page", floor: 400, tries: |trial| all(trial, Place::Front) };
pub const BACK: Part =
    Part { name: "all buffers before a page", floor: 400, tries: |trial| all(trial, Place::Back) };
pub const AMID: Part =
    Part { name: "all buffers between guards", floor: 400, tries: |trial| all(trial, Place::Amid(0)) };

const ROUNDS: u64 = 100;

fn all(trial: &mut Trial, place: Place) {
    trial.places = Some(Places::all(place));
    for number in 0..ROUNDS {
        trial.source = format!("all buffers {place:?} {number}");
        let chance = &mut Chance::new(number);
        let table = layout::table(&every_kind(), chance);
        let compiled = trial.compile(&table, CODE);
        let code = trial.code(compiled);
        trial.compile(&table, code.len());
        trial.run(chance.byte() & 1, &code, &schedule(code.len() / 8, chance), STACK);
        trial.run(chance.byte() & 1, &code, &[0], STACK + chance.below(100));
    }
}
