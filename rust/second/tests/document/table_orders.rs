//! The order of tests 1 to 6: 1; each node upward for 2, 3, 4; then 5; then 6.

use crate::answers::not_compiled;
use crate::lent::compile_into;

const VAL: [u8; 8] = [1, 0, 0, 0, 0, 0, 0, 0];
const KIND_0: [u8; 8] = [0, 0, 0, 0, 0, 0, 0, 0];
const VAL_BYTE_1: [u8; 8] = [1, 1, 0, 0, 0, 0, 0, 0];
const BLOCK_900: [u8; 8] = [6, 0, 0x84, 0x03, 0, 0, 0, 0];

fn refusal(records: &[[u8; 8]]) -> (u32, u32) {
    let (compiled, _) = compile_into(8_184, &records.concat());
    assert_eq!(compiled.length, 0);
    (compiled.refusal, compiled.place)
}

#[test]
fn size_before_everything() {
    assert_eq!(compile_into(0, &[0xFF; 9]).0, not_compiled(1, 0));
    assert_eq!(compile_into(0, &[0xFF; 4_104]).0, not_compiled(1, 0));
}

#[test]
fn unused_byte_of_an_earlier_node_before_kind_of_a_later() {
    assert_eq!(refusal(&[VAL_BYTE_1, KIND_0]), (3, 0));
}

#[test]
fn kind_of_an_earlier_node_before_unused_byte_of_a_later() {
    assert_eq!(refusal(&[KIND_0, VAL_BYTE_1]), (2, 0));
}

#[test]
fn operand_of_an_earlier_node_before_kind_of_a_later() {
    assert_eq!(refusal(&[VAL, BLOCK_900, KIND_0]), (4, 1));
}

#[test]
fn operand_of_an_earlier_node_before_unused_byte_of_a_later() {
    assert_eq!(refusal(&[VAL, BLOCK_900, VAL_BYTE_1]), (4, 1));
}

#[test]
fn kind_before_unused_byte_in_one_node() {
    assert_eq!(refusal(&[VAL, [8, 1, 1, 1, 1, 1, 1, 1]]), (2, 1));
}

#[test]
fn unused_byte_before_operand_in_one_node() {
    assert_eq!(refusal(&[VAL, [6, 0, 9, 0, 0, 1, 0, 0]]), (3, 1));
    assert_eq!(refusal(&[VAL, [3, 0, 9, 0, 9, 0, 0, 1]]), (3, 1));
}

#[test]
fn operand_of_a_later_node_before_uses_of_an_earlier() {
    assert_eq!(refusal(&[VAL, VAL, [6, 0, 2, 0, 0, 0, 0, 0]]), (4, 2));
}

#[test]
fn kind_and_unused_byte_of_a_later_node_before_uses_of_an_earlier() {
    assert_eq!(refusal(&[VAL, VAL, KIND_0]), (2, 2));
    assert_eq!(refusal(&[VAL, VAL, VAL_BYTE_1]), (3, 2));
}

#[test]
fn lowest_node_whether_never_used_or_twice() {
    let twice_1 = [3, 0, 1, 0, 1, 0, 0, 0];
    assert_eq!(refusal(&[VAL, VAL, twice_1]), (5, 0));
    let twice_0 = [3, 0, 0, 0, 0, 0, 0, 0];
    assert_eq!(refusal(&[VAL, VAL, twice_0]), (5, 0));
    let left_0_right_1 = [3, 0, 0, 0, 1, 0, 0, 0];
    assert_eq!(refusal(&[VAL, VAL, left_0_right_1, VAL]), (5, 2));
}

#[test]
fn uses_before_code_buffer() {
    let table = [VAL, [3, 0, 0, 0, 0, 0, 0, 0]].concat();
    assert_eq!(compile_into(0, &table).0, not_compiled(5, 0));
}

#[test]
fn everything_else_before_code_buffer() {
    assert_eq!(compile_into(0, &KIND_0).0, not_compiled(2, 0));
    assert_eq!(compile_into(0, &VAL_BYTE_1).0, not_compiled(3, 0));
    assert_eq!(compile_into(0, &BLOCK_900).0, not_compiled(4, 0));
    assert_eq!(compile_into(0, &VAL).0, not_compiled(6, 0));
}
