//! The evaluation rules, read as a set of ends (document 01, "What a recipe may
//! end in"; 001, sections 2 and 5).
//!
//! Each rule is a function under its name in 001, from the ends of its premises
//! to the ends it derives. Meant for small expressions: the sets of sums grow
//! quickly.

use crate::expression::{End, Expression, Status};
use std::collections::BTreeSet;

type Ends = BTreeSet<End>;

/// Every end v with "e in the status gives v".
pub fn permitted(e: &Expression, status: Status) -> BTreeSet<End> {
    let gives = |operand: &Expression| permitted(operand, status);
    let derived = match e {
        Expression::Val(n) => vec![val(*n)],
        Expression::Throw => vec![throw()],
        Expression::Add(x, y) => {
            let (x, y) = (gives(x), gives(y));
            vec![add1(&x, &y), add2(&x), add3(&x, &y)]
        }
        Expression::Seqn(x, y) => {
            let (x, y) = (gives(x), gives(y));
            vec![seqn1(&x, &y), seqn2(&x)]
        }
        Expression::Catch(x, y) => {
            let (x, y) = (gives(x), gives(y));
            vec![catch1(&x), catch2(&x, &y)]
        }
        Expression::Block(x) => vec![block(x)],
        Expression::Unblock(x) => vec![unblock(x)],
    };
    derived.into_iter().flatten().chain(int(status)).collect()
}

/// VAL: Val n gives n.
fn val(n: i32) -> Ends {
    Ends::from([End::Number(n)])
}

/// THROW: Throw gives Throw.
fn throw() -> Ends {
    Ends::from([End::Throw])
}

/// ADD1: n + m if x gives n and y gives m, wrapped as document 01 decides.
fn add1(x: &Ends, y: &Ends) -> Ends {
    numbers(x).flat_map(|n| numbers(y).map(move |m| End::Number(n.wrapping_add(m)))).collect()
}

/// ADD2: Throw if x gives Throw.
fn add2(x: &Ends) -> Ends {
    throw_if(throws(x))
}

/// ADD3: Throw if x gives a number and y gives Throw.
fn add3(x: &Ends, y: &Ends) -> Ends {
    throw_if(has_number(x) && throws(y))
}

/// SEQN1: what y gives if x gives a number.
fn seqn1(x: &Ends, y: &Ends) -> Ends {
    all_if(has_number(x), y)
}

/// SEQN2: Throw if x gives Throw.
fn seqn2(x: &Ends) -> Ends {
    throw_if(throws(x))
}

/// CATCH1: n if x gives n.
fn catch1(x: &Ends) -> Ends {
    numbers(x).map(End::Number).collect()
}

/// CATCH2: what y gives if x gives Throw.
fn catch2(x: &Ends, y: &Ends) -> Ends {
    all_if(throws(x), y)
}

/// BLOCK: in either status, what x gives in blocked.
fn block(x: &Expression) -> Ends {
    permitted(x, Status::Blocked)
}

/// UNBLOCK: in either status, what x gives in unblocked.
fn unblock(x: &Expression) -> Ends {
    permitted(x, Status::Unblocked)
}

/// INT: in unblocked, every expression gives Throw.
fn int(status: Status) -> Ends {
    throw_if(status == Status::Unblocked)
}

fn numbers(ends: &Ends) -> impl Iterator<Item = i32> + '_ {
    ends.iter().filter_map(|end| match end {
        End::Number(n) => Some(*n),
        End::Throw => None,
    })
}

fn has_number(ends: &Ends) -> bool {
    numbers(ends).next().is_some()
}

fn throws(ends: &Ends) -> bool {
    ends.contains(&End::Throw)
}

fn throw_if(premise: bool) -> Ends {
    premise.then_some(End::Throw).into_iter().collect()
}

fn all_if(premise: bool, ends: &Ends) -> Ends {
    ends.iter().copied().filter(|_| premise).collect()
}
