//! 001's compiler correctness on small expressions, and document 01's "the same
//! work, step for step" on small and larger ones.

use crate::dice::Dice;
use crate::trees::{add, block, catch, seqn, unblock, val};
use second::evaluation::permitted;
use second::expression::{End, Expression, Status};
use second::{code, machine, paper};
use std::collections::BTreeSet;

/// All expressions of exactly so many nodes over three leaves.
fn of_nodes(nodes: usize) -> Vec<Expression> {
    match nodes {
        0 => vec![],
        1 => vec![val(1), val(2_147_483_647), Expression::Throw],
        _ => [with_one_operand(nodes - 1), with_two_operands(nodes - 1)].concat(),
    }
}

fn with_one_operand(nodes: usize) -> Vec<Expression> {
    of_nodes(nodes).into_iter().flat_map(|x| [block(x.clone()), unblock(x)]).collect()
}

fn with_two_operands(nodes: usize) -> Vec<Expression> {
    let mut all = Vec::new();
    for left in 1..nodes {
        for x in of_nodes(left) {
            for y in of_nodes(nodes - left) {
                all.push(add(x.clone(), y.clone()));
                all.push(seqn(x.clone(), y.clone()));
                all.push(catch(x.clone(), y));
            }
        }
    }
    all
}

/// The end both machines agree on, with equal totals within their bounds.
fn agreed(e: &Expression, status: Status, recalls: impl Fn(usize) -> bool) -> End {
    let nodes = e.nodes() as u32;
    let ours = machine::run(&code::compile(e), status, &recalls);
    let theirs = paper::run(e, status, &recalls);
    assert_eq!(ours.end, Ok(theirs.end));
    assert_eq!(ours.steps, theirs.steps);
    assert_eq!(ours.reached, theirs.reached);
    assert!(ours.steps < 3 * nodes);
    assert!(ours.reached < 2 * nodes);
    theirs.end
}

fn check_all_placings(e: &Expression) {
    for status in [Status::Blocked, Status::Unblocked] {
        let instructions = 2 * e.nodes() - 1;
        let ends: BTreeSet<End> =
            (0_u32..1 << instructions).map(|placing| agreed(e, status, |k| placing >> k & 1 == 1)).collect();
        assert_eq!(ends, permitted(e, status), "{e:?} in {status:?}");
    }
}

/// 3 leaves; 2 * 3 of two nodes; 2 * 6 + 3 * 9 of three; 2 * 39 + 3 * 2 * 18 of
/// four.
#[test]
fn all_small_expressions_are_listed() {
    let counts: Vec<usize> = (1..=4).map(|nodes| of_nodes(nodes).len()).collect();
    assert_eq!(counts, [3, 6, 39, 186]);
}

#[test]
fn ends_of_all_placings_are_the_permitted_ones() {
    (1..=4).flat_map(of_nodes).for_each(|e| check_all_placings(&e));
}

#[test]
fn finally_has_the_permitted_ends() {
    check_all_placings(&block(seqn(catch(unblock(val(1)), seqn(val(2), Expression::Throw)), val(3))));
}

fn grown(dice: &mut Dice, nodes: usize) -> Expression {
    match nodes {
        0 | 1 if dice.roll(4) == 0 => Expression::Throw,
        0 | 1 => val(dice.roll(7) as i32 - 3),
        2 => match dice.roll(2) {
            0 => block(grown(dice, 1)),
            _ => unblock(grown(dice, 1)),
        },
        _ => {
            let kind = dice.roll(6);
            if kind == 0 {
                return block(grown(dice, nodes - 1));
            }
            if kind == 1 {
                return unblock(grown(dice, nodes - 1));
            }
            let left = 1 + dice.roll(nodes as u32 - 2) as usize;
            let x = grown(dice, left);
            let y = grown(dice, nodes - 1 - left);
            match kind {
                2 => add(x, y),
                3 => seqn(x, y),
                _ => catch(x, y),
            }
        }
    }
}

#[test]
fn larger_expressions_run_alike_step_for_step() {
    let mut dice = Dice::new(1);
    for round in 0..3_000 {
        let nodes = 1 + dice.roll(if round % 10 == 0 { 512 } else { 40 }) as usize;
        let e = grown(&mut dice, nodes);
        assert_eq!(e.nodes(), nodes);
        let odds = 1 + dice.roll(40);
        let placing: Vec<bool> = (0..2 * nodes).map(|_| dice.roll(odds) == 0).collect();
        for status in [Status::Blocked, Status::Unblocked] {
            agreed(&e, status, |k| placing.get(k).copied().unwrap_or(false));
        }
    }
}
