//! Calls with lent buffers whose every byte is looked at afterwards.

use second::{compile, run, Answer, Compiled};

pub const BLOCKED: u8 = 0;
pub const UNBLOCKED: u8 = 1;

/// What the buffers hold before a call.
const OLD: u8 = 0xAA;

/// Compiles into `room` bytes; accepted or refused, the bytes behind the code
/// have to be the old ones.
pub fn compile_into(room: usize, table: &[u8]) -> (Compiled, Vec<u8>) {
    let mut buffer = vec![OLD; room];
    let compiled = compile(table, &mut buffer);
    let rest = buffer.split_off(compiled.length as usize * 8);
    assert!(rest.iter().all(|&byte| byte == OLD));
    (compiled, buffer)
}

/// A run that begins leaves 4,096 zero bytes and the rest untouched.
pub fn run_begun(status: u8, code: &[u8], schedule: &[u8]) -> Answer {
    let mut stack = vec![OLD; 4_096 + 9];
    let answer = run(status, code, schedule, &mut stack);
    assert!(stack[..4_096].iter().all(|&byte| byte == 0));
    assert!(stack[4_096..].iter().all(|&byte| byte == OLD));
    answer
}

/// A run refused by 7 to 12 writes nothing.
pub fn run_not_begun(status: u8, code: &[u8], stack_bytes: usize) -> Answer {
    let mut stack = vec![OLD; stack_bytes];
    let answer = run(status, code, &[0xFF], &mut stack);
    assert!(stack.iter().all(|&byte| byte == OLD));
    answer
}

/// Compiles a table that has to be accepted, and runs it.
pub fn recipe(status: u8, table: &[u8], schedule: &[u8]) -> Answer {
    let (compiled, code) = compile_into(8_184, table);
    assert_eq!(compiled.refusal, 0);
    run_begun(status, &code, schedule)
}

/// Foreign code from opcodes and operands.
pub fn foreign(instructions: &[(u8, u32)]) -> Vec<u8> {
    instructions
        .iter()
        .flat_map(|(opcode, operand)| {
            let [a, b, c, d] = operand.to_le_bytes();
            [*opcode, 0, 0, 0, a, b, c, d]
        })
        .collect()
}

pub const PUSH: u8 = 1;
pub const THROW: (u8, u32) = (2, 0);
pub const ADD: (u8, u32) = (3, 0);
pub const POP: (u8, u32) = (4, 0);
pub const MARK: u8 = 5;
pub const UNMARK: u8 = 6;
pub const SET: u8 = 7;
pub const RESET: (u8, u32) = (8, 0);
