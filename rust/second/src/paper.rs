//! 001's own virtual machine and compiler (sections 7 and 8), without addresses:
//! MARK carries the handler's code, and what follows a Catch stands behind both
//! its parts.
//!
//! Interrupts come by a placing and both totals are counted as in document 01,
//! to show that one copy and two targets "do the same work, step for step".

use crate::expression::{End, Expression, Status};
use std::rc::Rc;

/// 001's `type Code = [Op]`. Shared, so that the second copy costs nothing.
#[derive(Clone)]
struct Code(Option<Rc<Link>>);

struct Link {
    op: Op,
    ops: Code,
}

/// 001's `data Op`.
enum Op {
    Push(i32),
    Throw,
    Add,
    Pop,
    Mark(Code),
    Unmark,
    Set(Status),
    Reset,
}

/// 001's `data Item`.
enum Item {
    Val(i32),
    Han(Code),
    Int(Status),
}

/// 001's `State` of normal and `State'` of exceptional execution; the top of a
/// stack is at its end.
enum State {
    Normal(Code, Status, Vec<Item>),
    Exceptional(Status, Vec<Item>),
}

/// How a run finished, with document 01's two totals.
#[derive(Debug, Clone, Copy, PartialEq, Eq)]
pub struct Finish {
    pub end: End,
    pub steps: u32,
    pub reached: u32,
}

/// Runs `comp e []` from the empty stack. `recalls` says whether one is placed
/// at the instruction reached as number k.
///
/// By 001's Theorem 1 a run comes to rest at `([], i, [VAL n])` or `((i, []))`
/// only. Any other rest would be answered as a throw, and would stand out by a
/// step missing beside document 01's machine.
pub fn run(e: &Expression, status: Status, recalls: impl Fn(usize) -> bool) -> Finish {
    let mut state = State::Normal(comp(e, Code(None)), status, Vec::new());
    let (mut steps, mut reached) = (0_u32, 0_u32);
    let end = loop {
        let next = match state {
            State::Normal(Code(None), _, stack) => break top_number(&stack),
            State::Normal(Code(Some(link)), status, stack) => {
                let interrupted = status == Status::Unblocked && recalls(reached as usize);
                reached += 1;
                if interrupted {
                    Some(State::Exceptional(status, stack))
                } else {
                    normal(&link, status, stack)
                }
            }
            State::Exceptional(status, stack) => exceptional(status, stack),
        };
        match next {
            Some(next) => state = next,
            None => break End::Throw,
        }
        steps += 1;
    };
    Finish { end, steps, reached }
}

fn top_number(stack: &[Item]) -> End {
    match stack {
        [Item::Val(n)] => End::Number(*n),
        _ => End::Throw,
    }
}

fn cons(op: Op, ops: Code) -> Code {
    Code(Some(Rc::new(Link { op, ops })))
}

/// 001, section 8, equation by equation.
fn comp(e: &Expression, ops: Code) -> Code {
    match e {
        Expression::Val(n) => cons(Op::Push(*n), ops),
        Expression::Throw => cons(Op::Throw, ops),
        Expression::Add(x, y) => comp(x, comp(y, cons(Op::Add, ops))),
        Expression::Seqn(x, y) => comp(x, cons(Op::Pop, comp(y, ops))),
        Expression::Catch(x, y) => {
            let handler = comp(y, ops.clone());
            cons(Op::Mark(handler), comp(x, cons(Op::Unmark, ops)))
        }
        Expression::Block(x) => cons(Op::Set(Status::Blocked), comp(x, cons(Op::Reset, ops))),
        Expression::Unblock(x) => cons(Op::Set(Status::Unblocked), comp(x, cons(Op::Reset, ops))),
    }
}

/// The rules of normal execution; `None` where there is none. As in 001, UNMARK
/// and RESET keep any item on top, a number or not.
fn normal(link: &Link, status: Status, mut stack: Vec<Item>) -> Option<State> {
    let ops = link.ops.clone();
    match &link.op {
        Op::Push(n) => {
            stack.push(Item::Val(*n));
            Some(State::Normal(ops, status, stack))
        }
        Op::Throw => Some(State::Exceptional(status, stack)),
        Op::Add => {
            let (Item::Val(m), Item::Val(n)) = (stack.pop()?, stack.pop()?) else {
                return None;
            };
            stack.push(Item::Val(n.wrapping_add(m)));
            Some(State::Normal(ops, status, stack))
        }
        Op::Pop => {
            let Item::Val(_) = stack.pop()? else {
                return None;
            };
            Some(State::Normal(ops, status, stack))
        }
        Op::Mark(handler) => {
            stack.push(Item::Han(handler.clone()));
            Some(State::Normal(ops, status, stack))
        }
        Op::Unmark => {
            let (x, Item::Han(_)) = (stack.pop()?, stack.pop()?) else {
                return None;
            };
            stack.push(x);
            Some(State::Normal(ops, status, stack))
        }
        Op::Set(own) => {
            stack.push(Item::Int(status));
            Some(State::Normal(ops, *own, stack))
        }
        Op::Reset => {
            let (x, Item::Int(saved)) = (stack.pop()?, stack.pop()?) else {
                return None;
            };
            stack.push(x);
            Some(State::Normal(ops, saved, stack))
        }
    }
}

/// The rules of exceptional execution; `None` on the empty stack.
fn exceptional(status: Status, mut stack: Vec<Item>) -> Option<State> {
    Some(match stack.pop()? {
        Item::Val(_) => State::Exceptional(status, stack),
        Item::Int(saved) => State::Exceptional(saved, stack),
        Item::Han(ops) => State::Normal(ops, status, stack),
    })
}
