//! R1 to R12.

use crate::answers::{not_compiled, number, throw};
use crate::lent::{compile_into, recipe, BLOCKED, UNBLOCKED};

const VAL_9: [u8; 8] = [1, 0, 0, 0, 9, 0, 0, 0];

#[rustfmt::skip]
pub const TREE_A: [u8; 56] = [
    1, 0, 0, 0, 5, 0, 0, 0, // 0: Val 5
    1, 0, 0, 0, 7, 0, 0, 0, // 1: Val 7
    2, 0, 0, 0, 0, 0, 0, 0, // 2: Throw
    3, 0, 1, 0, 2, 0, 0, 0, // 3: Add 1 2
    1, 0, 0, 0, 6, 0, 0, 0, // 4: Val 6
    5, 0, 3, 0, 4, 0, 0, 0, // 5: Catch 3 4
    3, 0, 0, 0, 5, 0, 0, 0, // 6: Add 0 5
];

#[rustfmt::skip]
const BLOCK_VAL_4: [u8; 16] = [
    1, 0, 0, 0, 4, 0, 0, 0,
    6, 0, 0, 0, 0, 0, 0, 0,
];

#[rustfmt::skip]
const UNBLOCK_BLOCK_VAL_4: [u8; 24] = [
    1, 0, 0, 0, 4, 0, 0, 0,
    6, 0, 0, 0, 0, 0, 0, 0,
    7, 0, 1, 0, 0, 0, 0, 0,
];

#[rustfmt::skip]
pub const ADD_MAX_1: [u8; 24] = [
    1, 0, 0, 0, 0xFF, 0xFF, 0xFF, 0x7F,
    1, 0, 0, 0, 1, 0, 0, 0,
    3, 0, 0, 0, 1, 0, 0, 0,
];

#[rustfmt::skip]
const CATCH_1_2: [u8; 24] = [
    1, 0, 0, 0, 1, 0, 0, 0,
    1, 0, 0, 0, 2, 0, 0, 0,
    5, 0, 0, 0, 1, 0, 0, 0,
];

#[rustfmt::skip]
pub const VAL_ADD_0_0: [u8; 16] = [
    1, 0, 0, 0, 0, 0, 0, 0,
    3, 0, 0, 0, 0, 0, 0, 0,
];

#[test]
fn r1_val_unblocked() {
    assert_eq!(recipe(UNBLOCKED, &VAL_9, &[]), number(9, 1, 1));
}

#[test]
fn r2_val_recalled() {
    assert_eq!(recipe(UNBLOCKED, &VAL_9, &[0b1]), throw(1, 1));
}

#[test]
fn r3_recall_lapses_in_blocked() {
    assert_eq!(recipe(BLOCKED, &VAL_9, &[0b1]), number(9, 1, 1));
}

#[test]
fn r4_tree_a() {
    assert_eq!(recipe(UNBLOCKED, &TREE_A, &[]), number(11, 8, 6));
}

#[test]
fn r5_tree_a_recalled_under_its_handler() {
    assert_eq!(recipe(UNBLOCKED, &TREE_A, &[0b100]), number(11, 6, 5));
}

#[test]
fn r6_tree_a_recalled_at_its_last_instruction() {
    assert_eq!(recipe(UNBLOCKED, &TREE_A, &[0b10_0000]), throw(10, 6));
}

#[test]
fn r7_recalls_lapse_within_block() {
    assert_eq!(recipe(UNBLOCKED, &BLOCK_VAL_4, &[0b110]), number(4, 3, 3));
}

#[test]
fn r8_recall_before_block() {
    assert_eq!(recipe(UNBLOCKED, &BLOCK_VAL_4, &[0b1]), throw(1, 1));
}

#[test]
fn r9_opening_between_unblock_and_block() {
    assert_eq!(recipe(BLOCKED, &UNBLOCK_BLOCK_VAL_4, &[0b10]), throw(3, 2));
}

#[test]
fn r10_sum_wraps() {
    assert_eq!(recipe(BLOCKED, &ADD_MAX_1, &[]), number(-2_147_483_648, 3, 3));
}

#[test]
fn r11_handler_stays_until_its_unmark() {
    assert_eq!(recipe(UNBLOCKED, &CATCH_1_2, &[0b100]), number(2, 6, 4));
}

#[test]
fn r12_one_operand_twice() {
    assert_eq!(compile_into(8_184, &VAL_ADD_0_0).0, not_compiled(5, 0));
}
