//! Refusals 7 to 12, each with its place, and nothing written.

use crate::answers::{number, refused, throw};
use crate::lent::{foreign, run_begun, run_not_begun, BLOCKED, MARK, PUSH, SET, THROW, UNBLOCKED, UNMARK};

/// PUSH 1 at address 0, the record at address 1, THROW at address 2.
fn refusal_of_second(record: [u8; 8]) -> (u32, u32) {
    let code = [[1, 0, 0, 0, 1, 0, 0, 0], record, [2, 0, 0, 0, 0, 0, 0, 0]].concat();
    let answer = run_not_begun(UNBLOCKED, &code, 5_000);
    assert_eq!(answer, refused(answer.refusal, answer.place, 0, 0));
    (answer.refusal, answer.place)
}

#[test]
fn refusal_7_status() {
    let code = foreign(&[(PUSH, 9)]);
    for status in [2, 3, 128, 255] {
        assert_eq!(run_not_begun(status, &code, 4_096), refused(7, 0, 0, 0));
    }
}

#[test]
fn refusal_8_stack_buffer() {
    let code = foreign(&[(PUSH, 9)]);
    for bytes in [0, 1, 4_088, 4_095] {
        assert_eq!(run_not_begun(BLOCKED, &code, bytes), refused(8, 0, 0, 0));
    }
    let mut exact = vec![0xAA; 4_096];
    assert_eq!(second::run(BLOCKED, &code, &[], &mut exact), number(9, 1, 1));
    assert!(exact.iter().all(|&byte| byte == 0));
}

#[test]
fn refusal_9_code_bytes() {
    for bytes in [0, 1, 7, 9, 8_183, 8_185, 8_192] {
        let throws: Vec<u8> = foreign(&[THROW]).into_iter().cycle().take(bytes).collect();
        assert_eq!(run_not_begun(BLOCKED, &throws, 4_096), refused(9, 0, 0, 0));
    }
    let most = foreign(&[THROW; 1_023]);
    assert_eq!(run_begun(BLOCKED, &most, &[]), throw(1, 1));
}

#[test]
fn refusal_10_opcode() {
    for opcode in [0, 9, 128, 255] {
        assert_eq!(refusal_of_second([opcode, 0, 0, 0, 0, 0, 0, 0]), (10, 1));
    }
}

#[test]
fn refusal_11_bytes_1_to_3() {
    for opcode in 1..=8 {
        let operand = if opcode == 5 || opcode == 6 { 2 } else { 0 };
        for byte in 1..=3 {
            let mut record = [opcode, 0, 0, 0, operand, 0, 0, 0];
            record[byte] = 0x40;
            assert_eq!(refusal_of_second(record), (11, 1));
        }
    }
}

#[test]
fn refusal_11_absent_operand() {
    for opcode in [2, 3, 4, 8] {
        for byte in 4..=7 {
            let mut record = [opcode, 0, 0, 0, 0, 0, 0, 0];
            record[byte] = 1;
            assert_eq!(refusal_of_second(record), (11, 1));
        }
    }
}

#[test]
fn refusal_11_set_operand() {
    for operand in [
        [2, 0, 0, 0],
        [255, 0, 0, 0],
        [0, 1, 0, 0],
        [1, 1, 0, 0],
        [0, 0, 1, 0],
        [1, 0, 0, 0x80],
        [255, 255, 255, 255],
    ] {
        let [a, b, c, d] = operand;
        assert_eq!(refusal_of_second([SET, 0, 0, 0, a, b, c, d]), (11, 1));
    }
}

#[test]
fn refusal_12_target() {
    for opcode in [MARK, UNMARK] {
        for operand in
            [[0, 0, 0, 0], [1, 0, 0, 0], [4, 0, 0, 0], [2, 1, 0, 0], [2, 0, 0, 1], [255, 255, 255, 255]]
        {
            let [a, b, c, d] = operand;
            assert_eq!(refusal_of_second([opcode, 0, 0, 0, a, b, c, d]), (12, 1));
        }
    }
}

/// Unblocked with no recall: PUSH 1, MARK 3, THROW, and the handler's address is
/// the length, where the number 1 is left.
#[test]
fn the_length_is_a_target() {
    let code = foreign(&[(PUSH, 1), (MARK, 3), THROW]);
    assert_eq!(run_begun(UNBLOCKED, &code, &[]), number(1, 4, 3));
}
