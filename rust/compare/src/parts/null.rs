//! An empty schedule whose pointer is null, the one null pointer that the interface allows.

use super::damage::every_kind;
use super::recalled::{nodes, recipe, room_for_stack};
use super::{foreign, Part, CODE, STACK};
use crate::chance::Chance;
use crate::layout;
use crate::lent::Place;
use crate::places::Places;
use crate::trial::Trial;
use second::expression::Expression;

pub const NULL: Part = Part { name: "a null schedule", floor: 4_000, tries: all };

const ROUNDS: u64 = 1_000;

pub fn all(trial: &mut Trial) {
    for number in 0..ROUNDS {
        trial.source = format!("null schedule {number}");
        let chance = &mut Chance::new(number);
        let recipe = if number == 0 { every_kind() } else { any(chance) };
        let compiled = trial.compile(&layout::table(&recipe, chance), CODE);
        let code = trial.code(compiled);
        trial.places = Some(Places { schedule: Place::Null, ..Places::by_turns(number) });
        for status in [0, 1] {
            trial.run(status, &code, &[], STACK);
        }
        trial.run(1, &foreign::any_order(chance), &[], room_for_stack(chance));
        trial.places = None;
    }
}

fn any(chance: &mut Chance) -> Expression {
    let nodes = nodes(chance);
    recipe(nodes, chance)
}
