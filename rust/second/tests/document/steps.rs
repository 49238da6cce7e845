//! Single rules of the machine, and what is easy to get wrong.

use crate::answers::{number, refused, throw};
use crate::lent::{
    foreign, recipe, run_begun, ADD, BLOCKED, MARK, POP, PUSH, RESET, SET, THROW, UNBLOCKED, UNMARK,
};

fn blocked(instructions: &[(u8, u32)]) -> second::Answer {
    run_begun(BLOCKED, &foreign(instructions), &[0xFF; 200])
}

fn unblocked(instructions: &[(u8, u32)], schedule: &[u8]) -> second::Answer {
    run_begun(UNBLOCKED, &foreign(instructions), schedule)
}

#[test]
fn numbers_are_signed() {
    assert_eq!(blocked(&[(PUSH, 0xFFFF_FFFF)]), number(-1, 1, 1));
    assert_eq!(blocked(&[(PUSH, 0x8000_0000)]), number(i32::MIN, 1, 1));
}

#[test]
fn sums_wrap_at_both_ends() {
    let max_and_1 = [(PUSH, 0x7FFF_FFFF), (PUSH, 1), ADD];
    assert_eq!(blocked(&max_and_1), number(i32::MIN, 3, 3));
    let min_and_minus_1 = [(PUSH, 0x8000_0000), (PUSH, 0xFFFF_FFFF), ADD];
    assert_eq!(blocked(&min_and_minus_1), number(i32::MAX, 3, 3));
    let min_and_min = [(PUSH, 0x8000_0000), (PUSH, 0x8000_0000), ADD];
    assert_eq!(blocked(&min_and_min), number(0, 3, 3));
}

#[test]
fn no_rule_for_add() {
    assert_eq!(blocked(&[ADD]), refused(14, 0, 0, 0));
    assert_eq!(blocked(&[(PUSH, 1), ADD]), refused(14, 1, 1, 1));
    assert_eq!(blocked(&[(MARK, 1), (PUSH, 1), ADD]), refused(14, 2, 2, 2));
    assert_eq!(blocked(&[(PUSH, 1), (SET, 0), ADD]), refused(14, 2, 2, 2));
}

#[test]
fn no_rule_for_pop() {
    assert_eq!(blocked(&[(MARK, 2), POP]), refused(14, 1, 1, 1));
    assert_eq!(blocked(&[(SET, 0), POP]), refused(14, 1, 1, 1));
}

#[test]
fn no_rule_for_unmark() {
    assert_eq!(blocked(&[(UNMARK, 1)]), refused(14, 0, 0, 0));
    assert_eq!(blocked(&[(PUSH, 1), (UNMARK, 2)]), refused(14, 1, 1, 1));
    assert_eq!(blocked(&[(MARK, 2), (UNMARK, 2)]), refused(14, 1, 1, 1));
    let handler_over_handler = [(MARK, 3), (MARK, 3), (UNMARK, 3)];
    assert_eq!(blocked(&handler_over_handler), refused(14, 2, 2, 2));
    let number_over_status = [(SET, 0), (PUSH, 1), (UNMARK, 3)];
    assert_eq!(blocked(&number_over_status), refused(14, 2, 2, 2));
}

#[test]
fn no_rule_for_reset() {
    assert_eq!(blocked(&[RESET]), refused(14, 0, 0, 0));
    assert_eq!(blocked(&[(SET, 0), RESET]), refused(14, 1, 1, 1));
    let status_over_status = [(SET, 0), (SET, 0), RESET];
    assert_eq!(blocked(&status_over_status), refused(14, 2, 2, 2));
    let number_over_handler = [(MARK, 3), (PUSH, 1), RESET];
    assert_eq!(blocked(&number_over_handler), refused(14, 2, 2, 2));
}

#[test]
fn at_the_length_without_exactly_one_number() {
    assert_eq!(blocked(&[(PUSH, 1), POP]), refused(14, 2, 2, 2));
    assert_eq!(blocked(&[(PUSH, 1), (PUSH, 2)]), refused(14, 2, 2, 2));
    assert_eq!(blocked(&[(SET, 0)]), refused(14, 1, 1, 1));
    assert_eq!(blocked(&[(MARK, 1)]), refused(14, 1, 1, 1));
    assert_eq!(blocked(&[(MARK, 2), (PUSH, 1)]), refused(14, 2, 2, 2));
    assert_eq!(blocked(&[(PUSH, 1), (SET, 0)]), refused(14, 2, 2, 2));
    assert_eq!(blocked(&[(MARK, 2), THROW]), refused(14, 2, 3, 2));
}

#[test]
fn every_pushing_instruction_is_refused_on_512_items() {
    for last in [(PUSH, 1), (MARK, 513), (SET, 1)] {
        let mut code = vec![(PUSH, 1); 512];
        code.push(last);
        assert_eq!(blocked(&code), refused(13, 512, 512, 512));
    }
}

/// ADD at 512 items: 511 are left, and at the length that is no end.
#[test]
fn instructions_that_do_not_push_work_on_512_items() {
    let mut code = vec![(PUSH, 1); 512];
    code.push(ADD);
    assert_eq!(blocked(&code), refused(14, 513, 513, 513));
    let mut code = vec![(PUSH, 1); 512];
    code.push(THROW);
    assert_eq!(blocked(&code), throw(1_025, 513));
}

#[test]
fn unmark_goes_on_at_its_target() {
    let code = [(MARK, 1), (PUSH, 8), (UNMARK, 4), THROW];
    assert_eq!(blocked(&code), number(8, 3, 3));
}

#[test]
fn set_saves_the_present_status_and_reset_restores_it() {
    let code = [(SET, 0), (PUSH, 1), RESET, POP, (PUSH, 2)];
    assert_eq!(unblocked(&code, &[0b0_0110]), number(2, 5, 5));
    assert_eq!(unblocked(&code, &[0b0_1110]), throw(5, 4));
    assert_eq!(unblocked(&code, &[0b1_0110]), throw(5, 5));
}

/// No counting of blocks: one SET 1 opens both.
#[test]
fn one_unblock_opens_two_blocks() {
    let code = [(SET, 0), (SET, 0), (SET, 1), (PUSH, 1), RESET, RESET, RESET];
    assert_eq!(unblocked(&code, &[0b110_0110]), number(1, 7, 7));
    assert_eq!(unblocked(&code, &[0b000_1000]), throw(7, 4));
    assert_eq!(unblocked(&code, &[0b001_0000]), throw(9, 5));
}

#[test]
fn bit_8_is_the_lowest_of_byte_1() {
    let nine_pushes = [(PUSH, 1); 9];
    assert_eq!(unblocked(&nine_pushes, &[0x00, 0x01]), throw(17, 9));
    assert_eq!(unblocked(&nine_pushes, &[0x80, 0x00]), throw(15, 8));
    assert_eq!(unblocked(&nine_pushes, &[0x00]), refused(14, 9, 9, 9));
    assert_eq!(unblocked(&nine_pushes, &[0x00, 0xFE]), refused(14, 9, 9, 9));
}

#[test]
fn no_cut_after_the_last_instruction() {
    assert_eq!(unblocked(&[(PUSH, 9)], &[0b10]), number(9, 1, 1));
}

/// The steps of unwinding read no bit: recall 4 meets the handler's PUSH, and a
/// recall counted by steps would miss it.
#[test]
fn no_cut_while_unwinding() {
    let code = [(MARK, 4), (PUSH, 1), (PUSH, 2), THROW, (PUSH, 3)];
    assert_eq!(unblocked(&code, &[]), number(3, 8, 5));
    assert_eq!(unblocked(&code, &[0b1_0000]), throw(8, 5));
    assert_eq!(unblocked(&code, &[0b1110_0000, 0xFF]), number(3, 8, 5));
}

/// Block (Catch (Unblock (Val 1)) (Val 2)): the recall strikes in unblocked, the
/// handler runs in blocked, where two more recalls lapse.
#[test]
fn a_handler_runs_in_the_status_at_its_mark() {
    #[rustfmt::skip]
    let table = [
        1, 0, 0, 0, 1, 0, 0, 0, // 0: Val 1
        7, 0, 0, 0, 0, 0, 0, 0, // 1: Unblock 0
        1, 0, 0, 0, 2, 0, 0, 0, // 2: Val 2
        5, 0, 1, 0, 2, 0, 0, 0, // 3: Catch 1 2
        6, 0, 3, 0, 0, 0, 0, 0, // 4: Block 3
    ];
    assert_eq!(recipe(UNBLOCKED, &table, &[0b11_1000]), number(2, 8, 6));
    assert_eq!(recipe(UNBLOCKED, &table, &[]), number(1, 7, 7));
    assert_eq!(recipe(UNBLOCKED, &table, &[0b1]), throw(1, 1));
    assert_eq!(recipe(BLOCKED, &table, &[0b1]), number(1, 7, 7));
}
