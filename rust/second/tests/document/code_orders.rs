//! The order of tests 7 to 12: 7, 8, 9; then each instruction upward for 10, 11,
//! 12.

use crate::answers::refused;
use crate::lent::{foreign, run_not_begun, BLOCKED, MARK, POP};

const PUSH_1: [u8; 8] = [1, 0, 0, 0, 1, 0, 0, 0];
const OPCODE_9: [u8; 8] = [9, 0, 0, 0, 0, 0, 0, 0];
const ADD_BYTE_3: [u8; 8] = [3, 0, 0, 1, 0, 0, 0, 0];
const MARK_0: [u8; 8] = [5, 0, 0, 0, 0, 0, 0, 0];

fn refusal(records: &[[u8; 8]]) -> (u32, u32) {
    let answer = run_not_begun(BLOCKED, &records.concat(), 4_096);
    assert_eq!(answer, refused(answer.refusal, answer.place, 0, 0));
    (answer.refusal, answer.place)
}

#[test]
fn status_before_stack_buffer() {
    assert_eq!(run_not_begun(2, &PUSH_1, 0), refused(7, 0, 0, 0));
}

#[test]
fn status_before_code_bytes_and_instructions() {
    assert_eq!(run_not_begun(2, &[], 4_096), refused(7, 0, 0, 0));
    assert_eq!(run_not_begun(2, &OPCODE_9, 4_096), refused(7, 0, 0, 0));
}

#[test]
fn stack_buffer_before_code_bytes_and_instructions() {
    assert_eq!(run_not_begun(BLOCKED, &[], 4_095), refused(8, 0, 0, 0));
    assert_eq!(run_not_begun(BLOCKED, &OPCODE_9, 4_095), refused(8, 0, 0, 0));
}

#[test]
fn code_bytes_before_instructions() {
    assert_eq!(run_not_begun(BLOCKED, &[9; 9], 4_096), refused(9, 0, 0, 0));
    assert_eq!(run_not_begun(BLOCKED, &[9; 8_192], 4_096), refused(9, 0, 0, 0));
}

#[test]
fn field_at_an_earlier_address_before_opcode_at_a_later() {
    assert_eq!(refusal(&[PUSH_1, ADD_BYTE_3, OPCODE_9]), (11, 1));
}

#[test]
fn target_at_an_earlier_address_before_opcode_at_a_later() {
    assert_eq!(refusal(&[PUSH_1, MARK_0, OPCODE_9]), (12, 1));
}

#[test]
fn target_at_an_earlier_address_before_field_at_a_later() {
    assert_eq!(refusal(&[MARK_0, ADD_BYTE_3]), (12, 0));
}

#[test]
fn opcode_at_an_earlier_address_before_the_others_at_a_later() {
    assert_eq!(refusal(&[OPCODE_9, ADD_BYTE_3, MARK_0]), (10, 0));
}

#[test]
fn opcode_before_field_in_one_instruction() {
    assert_eq!(refusal(&[[0, 1, 1, 1, 1, 1, 1, 1]]), (10, 0));
}

#[test]
fn field_before_target_in_one_instruction() {
    assert_eq!(refusal(&[[5, 0, 1, 0, 0, 0, 0, 0]]), (11, 0));
    assert_eq!(refusal(&[[6, 0, 0, 1, 9, 9, 9, 9]]), (11, 0));
}

/// A lone POP would be refused 14 at once; the last instruction is tested first.
#[test]
fn all_instructions_before_the_first_step() {
    let code = foreign(&[POP, POP, (MARK, 2)]);
    assert_eq!(run_not_begun(BLOCKED, &code, 4_096), refused(12, 2, 0, 0));
}
