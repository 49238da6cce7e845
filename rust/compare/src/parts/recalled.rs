//! Recipes of every shape up to 512 nodes, in several numberings, under schedules of every kind.

use super::{demand, AMPLE, CODE, STACK};
use crate::chance::Chance;
use crate::layout;
use crate::recipes::{Shape, SHAPES};
use crate::trial::Trial;
use second::expression::{Expression, Status};
use second::schedule::asks;

/// Runs of one recipe.
const RUNS: usize = 6;

pub fn round(trial: &mut Trial, chance: &mut Chance) {
    let nodes = nodes(chance);
    let recipe = recipe(nodes, chance);
    let table = layout::table(&recipe, chance);
    let compiled = trial.compile(&table, CODE);
    let code = trial.code(compiled);
    trial.claim("a recipe is accepted", compiled.refusal == 0);
    trial.claim("at most 2n - 1 instructions", code.len() <= 8 * (2 * nodes - 1));
    let room = chance.pick(&[0, code.len() - 8, code.len() - 1, code.len(), code.len() + 1, AMPLE]);
    trial.compile(&layout::table(&recipe, chance), room);
    for _ in 0..RUNS {
        let status = chance.pick(&[Status::Blocked, Status::Unblocked]);
        let schedule = schedule(code.len() / 8, chance);
        let answer = trial.run(demand::byte(status), &code, &schedule, STACK);
        demand::bounds(trial, nodes, answer);
        if chance.one_in(4) {
            demand::paper(trial, &recipe, status, |k| asks(&schedule, k), answer);
        }
    }
    let room = room_for_stack(chance);
    trial.run(status(chance), &code, &schedule(code.len() / 8, chance), room);
}

/// Small ones more often, since they take less time.
pub fn nodes(chance: &mut Chance) -> usize {
    let most = chance.pick(&[3, 8, 8, 16, 16, 32, 32, 64, 128, 512]);
    chance.between(1, most)
}

pub fn recipe(nodes: usize, chance: &mut Chance) -> Expression {
    let shape = if chance.one_in(3) { chance.pick(&SHAPES) } else { Shape::Mixed };
    shape.recipe(nodes, chance)
}

/// A schedule for a code of so many instructions: none, short, just enough, or far too long; with no recall, one, few, many
/// or all.
pub fn schedule(instructions: usize, chance: &mut Chance) -> Vec<u8> {
    let enough = instructions.div_ceil(8);
    let bytes = match chance.below(8) {
        0 => 0,
        1 => chance.between(0, enough),
        2 => chance.between(0, 4000),
        _ => enough,
    };
    let mut schedule = vec![0; bytes];
    match chance.below(5) {
        0 => {}
        1 => {
            for _ in 0..chance.between(1, 3) {
                let k = chance.below(instructions.max(1));
                if let Some(byte) = schedule.get_mut(k / 8) {
                    *byte |= 1 << (k % 8);
                }
            }
        }
        2 => schedule.iter_mut().for_each(|byte| *byte = chance.byte() & chance.byte() & chance.byte()),
        3 => schedule.iter_mut().for_each(|byte| *byte = chance.byte()),
        _ => schedule.fill(0xff),
    }
    schedule
}

/// One of the two, or one that is refused.
pub fn status(chance: &mut Chance) -> u8 {
    match chance.below(3) {
        0 => chance.byte(),
        _ => chance.byte() & 1,
    }
}

pub fn room_for_stack(chance: &mut Chance) -> usize {
    match chance.below(4) {
        0 => chance.pick(&[0, 1, 4095, 4097, AMPLE]),
        1 => chance.between(0, AMPLE),
        _ => STACK,
    }
}
