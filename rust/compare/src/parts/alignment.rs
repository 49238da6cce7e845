//! Buffers that begin anywhere: accepted tables and codes, each buffer at each byte past a multiple of 8, beside each place of the
//! others.

use super::damage::every_kind;
use super::{Part, CODE, STACK};
use crate::chance::Chance;
use crate::layout;
use crate::lent::Place;
use crate::places::{Places, OFFSETS};
use crate::recipes::Shape;
use crate::trial::Trial;
use second::expression::Expression;

pub const ALIGNMENT: Part = Part { name: "buffers at every offset", floor: 6_300, tries: all };

pub fn all(trial: &mut Trial) {
    let chance = &mut Chance::new(0);
    let recipes = [every_kind(), Shape::Working.recipe(40, chance), Shape::Openings.recipe(512, chance)];
    for recipe in &recipes {
        trial.source = "offsets".to_string();
        let code = compiled(trial, recipe, chance);
        for (code_at, schedule_at) in pairs() {
            for stack_at in 0..OFFSETS {
                trial.places = Some(Places {
                    table: Place::Amid(0),
                    code: Place::Amid(code_at),
                    schedule: Place::Amid(schedule_at),
                    stack: Place::Amid(stack_at),
                });
                run(trial, &code, code_at + schedule_at + stack_at);
            }
        }
    }
}

fn compiled(trial: &mut Trial, recipe: &Expression, chance: &mut Chance) -> Vec<u8> {
    let table = layout::table(recipe, chance);
    let mut code = Vec::new();
    for (table_at, code_at) in pairs() {
        trial.places = Some(Places {
            table: Place::Amid(table_at),
            code: Place::Amid(code_at),
            ..Places::all(Place::Amid(0))
        });
        let compiled = trial.compile(&table, CODE);
        trial.claim("a recipe is accepted", compiled.refusal == 0);
        code = trial.code(compiled);
    }
    code
}

/// From both statuses, quietly and with a recall at an instruction, in a stack as short as it may be and longer.
fn run(trial: &mut Trial, code: &[u8], recalled: usize) {
    let mut recall = vec![0; code.len().div_ceil(64)];
    recall[0] = 1 << (recalled % 8);
    for (status, schedule, room) in [(0, &recall, STACK), (1, &vec![], STACK), (1, &recall, STACK + 1)] {
        let answer = trial.run(status, code, schedule, room);
        trial.claim("compiled code comes to an end", answer.refusal == 0);
    }
    trial.run(1, code, &vec![0xff; recalled % 5], STACK);
}

fn pairs() -> impl Iterator<Item = (usize, usize)> {
    (0..OFFSETS).flat_map(|first| (0..OFFSETS).map(move |second| (first, second)))
}
