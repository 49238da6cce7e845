//! Demand 3, run: all recipes of a few nodes in every numbering, from both statuses, under every schedule over their
//! instructions; against the second program, against the paper's machine, and against the ends that the rules permit.

use super::{demand, Part, CODE, STACK};
use crate::layout::Nodes;
use crate::recipes;
use crate::trial::Trial;
use second::evaluation::permitted;
use second::expression::{Expression, Status};
use std::collections::BTreeSet;

pub const FOUR: Part =
    Part { name: "all recipes of up to 4 nodes", floor: 50_000, tries: |trial| all(trial, 4) };
pub const FIVE: Part =
    Part { name: "all recipes of up to 5 nodes", floor: 1_260_000, tries: |trial| all(trial, 5) };

/// Two sums of these wrap, and two don't.
const LEAVES: [Expression; 3] = [Expression::Val(1), Expression::Val(i32::MAX), Expression::Throw];

/// All recipes of 1 up to so many nodes.
pub fn all(trial: &mut Trial, most: usize) {
    for nodes in 1..=most {
        for recipe in recipes::all(nodes, &LEAVES) {
            trial.source = format!("{recipe:?}");
            let code = compiled(trial, &recipe);
            for status in [Status::Blocked, Status::Unblocked] {
                every_schedule(trial, &recipe, nodes, &code, status);
            }
        }
    }
}

/// The code, which no numbering changes.
fn compiled(trial: &mut Trial, recipe: &Expression) -> Vec<u8> {
    let nodes = Nodes::of(recipe);
    let compiled = trial.compile(&nodes.table(&nodes.in_order()), CODE);
    let code = trial.code(compiled);
    for numbering in nodes.all_numberings() {
        let again = trial.compile(&nodes.table(&numbering), code.len());
        let same = trial.code(again) == code;
        trial.claim("the code is that of every numbering", same);
    }
    code
}

fn every_schedule(trial: &mut Trial, recipe: &Expression, nodes: usize, code: &[u8], status: Status) {
    let instructions = 2 * nodes - 1;
    let mut met = BTreeSet::new();
    for placing in 0..1u32 << instructions {
        let schedule = &placing.to_le_bytes()[..instructions.div_ceil(8)];
        let answer = trial.run(demand::byte(status), code, schedule, STACK);
        let recalls = |k| k < instructions && placing >> k & 1 == 1;
        demand::bounds(trial, nodes, answer);
        demand::paper(trial, recipe, status, recalls, answer);
        met.extend(demand::end(answer));
    }
    trial.claim("the ends met are those permitted", met == permitted(recipe, status));
}
