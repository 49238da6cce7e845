//! The code of tables, byte by byte, and the trees that tables describe.

use crate::answers::length;
use crate::lent::{compile_into, foreign, ADD, MARK, POP, PUSH, RESET, SET, THROW, UNMARK};
use crate::recipes::TREE_A;
use crate::trees::{add, catch, val};
use second::code::Instruction;
use second::expression::{Expression, Status};

#[rustfmt::skip]
const CODE_OF_TREE_A: [u8; 64] = [
    1, 0, 0, 0, 5, 0, 0, 0, // PUSH 5
    5, 0, 0, 0, 6, 0, 0, 0, // MARK 6
    1, 0, 0, 0, 7, 0, 0, 0, // PUSH 7
    2, 0, 0, 0, 0, 0, 0, 0, // THROW
    3, 0, 0, 0, 0, 0, 0, 0, // ADD
    6, 0, 0, 0, 7, 0, 0, 0, // UNMARK 7
    1, 0, 0, 0, 6, 0, 0, 0, // PUSH 6
    3, 0, 0, 0, 0, 0, 0, 0, // ADD
];

fn tree_a() -> Expression {
    add(val(5), catch(add(val(7), Expression::Throw), val(6)))
}

#[test]
fn tree_a_bytes() {
    let (compiled, code) = compile_into(8_184, &TREE_A);
    assert_eq!(compiled, length(8));
    assert_eq!(code, CODE_OF_TREE_A);
}

#[test]
fn tree_a_as_a_tree() {
    assert_eq!(second::table::read(&TREE_A), Ok(tree_a()));
    assert_eq!(tree_a().nodes(), 7);
}

#[test]
fn tree_a_instructions_both_ways() {
    let instructions = vec![
        Instruction::Push(5),
        Instruction::Mark(6),
        Instruction::Push(7),
        Instruction::Throw,
        Instruction::Add,
        Instruction::Unmark(7),
        Instruction::Push(6),
        Instruction::Add,
    ];
    assert_eq!(second::code::compile(&tree_a()), instructions);
    assert_eq!(second::code::read(&CODE_OF_TREE_A), Ok(instructions));
}

#[test]
fn a_buffer_of_exactly_the_code() {
    let (compiled, code) = compile_into(64, &TREE_A);
    assert_eq!(compiled, length(8));
    assert_eq!(code, CODE_OF_TREE_A);
}

#[test]
fn seqn_block_and_unblock() {
    #[rustfmt::skip]
    let table = [
        1, 0, 0, 0, 0xFE, 0xFF, 0xFF, 0xFF, // 0: Val -2
        7, 0, 0, 0, 0, 0, 0, 0, // 1: Unblock 0
        2, 0, 0, 0, 0, 0, 0, 0, // 2: Throw
        6, 0, 2, 0, 0, 0, 0, 0, // 3: Block 2
        4, 0, 1, 0, 3, 0, 0, 0, // 4: Seqn 1 3
    ];
    let (compiled, code) = compile_into(100, &table);
    assert_eq!(compiled, length(7));
    assert_eq!(code, foreign(&[(SET, 1), (PUSH, 0xFFFF_FFFE), RESET, POP, (SET, 0), THROW, RESET,]));
}

#[test]
fn catch_within_both_parts_of_catch() {
    #[rustfmt::skip]
    let table = [
        2, 0, 0, 0, 0, 0, 0, 0, // 0: Throw
        1, 0, 0, 0, 1, 0, 0, 0, // 1: Val 1
        5, 0, 0, 0, 1, 0, 0, 0, // 2: Catch 0 1
        2, 0, 0, 0, 0, 0, 0, 0, // 3: Throw
        1, 0, 0, 0, 2, 0, 0, 0, // 4: Val 2
        5, 0, 3, 0, 4, 0, 0, 0, // 5: Catch 3 4
        5, 0, 2, 0, 5, 0, 0, 0, // 6: Catch 2 5
    ];
    let (compiled, code) = compile_into(8_184, &table);
    assert_eq!(compiled, length(10));
    assert_eq!(
        code,
        foreign(&[
            (MARK, 6),
            (MARK, 4),
            THROW,
            (UNMARK, 5),
            (PUSH, 1),
            (UNMARK, 10),
            (MARK, 9),
            THROW,
            (UNMARK, 10),
            (PUSH, 2),
        ])
    );
}

#[test]
fn operands_in_any_order_below_their_node() {
    #[rustfmt::skip]
    let table = [
        1, 0, 0, 0, 1, 0, 0, 0, // 0: Val 1
        1, 0, 0, 0, 2, 0, 0, 0, // 1: Val 2
        1, 0, 0, 0, 3, 0, 0, 0, // 2: Val 3
        3, 0, 2, 0, 0, 0, 0, 0, // 3: Add 2 0
        4, 0, 3, 0, 1, 0, 0, 0, // 4: Seqn 3 1
    ];
    let (compiled, code) = compile_into(8_184, &table);
    assert_eq!(compiled, length(5));
    assert_eq!(code, foreign(&[(PUSH, 3), (PUSH, 1), ADD, POP, (PUSH, 2)]));
}

#[test]
fn statuses_are_numbered_as_set_operands() {
    assert_eq!(Instruction::Set(Status::Blocked).bytes(), [7, 0, 0, 0, 0, 0, 0, 0]);
    assert_eq!(Instruction::Set(Status::Unblocked).bytes(), [7, 0, 0, 0, 1, 0, 0, 0]);
}
