//! The order within a run: an end or 14 at the length, then 15, then a step; a
//! recall before 13 or 14.

use crate::answers::{number, refused, throw};
use crate::lent::{foreign, run_begun, ADD, BLOCKED, MARK, POP, PUSH, SET, THROW, UNBLOCKED};

/// As many PUSHes and a THROW: twice the count and 1 steps until all is unwound.
fn heap(count: usize) -> Vec<(u8, u32)> {
    let mut code = vec![(PUSH, 7); count];
    code.push(THROW);
    code
}

/// MARK h, MARK 2, heap of 382, h: steps 1 + 1 + 765 + 1 + 765 + 1 = 1,534 when
/// running at h = 385 on the empty stack; reached 2 + 383 + 383 = 768.
fn at_385_after_1534_steps() -> Vec<(u8, u32)> {
    let mut code = vec![(MARK, 385), (MARK, 2)];
    code.extend(heap(382));
    code
}

#[test]
fn number_at_the_length_after_1535_steps() {
    let mut code = at_385_after_1534_steps();
    code.push((PUSH, 7));
    assert_eq!(run_begun(BLOCKED, &foreign(&code), &[]), number(7, 1_535, 769));
}

/// Three heaps under two handlers: 1 + 511 + 1 + 1 + 511 + 1 + 509 = 1,535.
#[test]
fn throw_after_1535_steps() {
    let mut code = vec![(MARK, 257)];
    code.extend(heap(255));
    code.push((MARK, 514));
    code.extend(heap(255));
    code.extend(heap(254));
    assert_eq!(run_begun(BLOCKED, &foreign(&code), &[]), throw(1_535, 769));
}

/// One more step before, and a saved status is all there is at the length.
#[test]
fn no_number_at_the_length_after_1535_steps() {
    let mut code = vec![(SET, 1), (MARK, 386), (MARK, 3)];
    code.extend(heap(382));
    assert_eq!(run_begun(UNBLOCKED, &foreign(&code), &[]), refused(14, 386, 1_535, 769));
}

#[test]
fn steps_before_a_step_that_would_be_refused() {
    let mut code = at_385_after_1534_steps();
    code.extend([(PUSH, 7), ADD]);
    assert_eq!(run_begun(BLOCKED, &foreign(&code), &[]), refused(15, 0, 1_535, 769));
}

/// 768 instructions are reached before PUSH 7, so ADD would be number 769: byte
/// 96, bit 1.
#[test]
fn steps_before_a_recall() {
    let mut code = at_385_after_1534_steps();
    code.extend([(PUSH, 7), ADD]);
    let mut schedule = [0; 97];
    schedule[96] = 0b10;
    assert_eq!(run_begun(UNBLOCKED, &foreign(&code), &schedule), refused(15, 0, 1_535, 769));
}

/// The recall at PUSH 7 is the last step, and the stack is empty.
#[test]
fn throw_by_a_recall_after_1535_steps() {
    let mut code = at_385_after_1534_steps();
    code.extend([(PUSH, 7), ADD]);
    let mut schedule = [0; 97];
    schedule[96] = 0b1;
    assert_eq!(run_begun(UNBLOCKED, &foreign(&code), &schedule), throw(1_535, 769));
}

/// PUSH, then what nine MARKs and a THROW do: 1 + 1,534, and the number is still
/// to be unwound.
#[test]
fn steps_while_unwinding() {
    let mut code = vec![(PUSH, 1)];
    code.extend((1..=9).map(|address| (MARK, address + 1)));
    code.push(THROW);
    assert_eq!(run_begun(BLOCKED, &foreign(&code), &[]), refused(15, 0, 1_535, 1_024));
}

#[test]
fn recall_before_a_refused_push() {
    let code = foreign(&[(PUSH, 1); 513]);
    let mut schedule = [0; 65];
    schedule[64] = 1;
    assert_eq!(run_begun(UNBLOCKED, &code, &schedule), throw(1_025, 513));
    assert_eq!(run_begun(BLOCKED, &code, &schedule), refused(13, 512, 512, 512));
}

#[test]
fn recall_before_no_rule() {
    let code = foreign(&[POP]);
    assert_eq!(run_begun(UNBLOCKED, &code, &[1]), throw(1, 1));
    assert_eq!(run_begun(BLOCKED, &code, &[1]), refused(14, 0, 0, 0));
}

/// POP is number 1 and has no rule; a later recall doesn't save it.
#[test]
fn no_rule_before_a_later_recall() {
    let code = foreign(&[(SET, 1), POP]);
    assert_eq!(run_begun(BLOCKED, &code, &[0b100]), refused(14, 1, 1, 1));
    assert_eq!(run_begun(BLOCKED, &code, &[0b010]), throw(3, 2));
}
