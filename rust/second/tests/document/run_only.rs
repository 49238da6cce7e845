//! The cases "Run only".

use crate::answers::{length, not_compiled, number, refused, throw};
use crate::lent::{
    compile_into, foreign, run_begun, run_not_begun, BLOCKED, MARK, POP, PUSH, THROW, UNBLOCKED,
};

/// Val 3 at node 0, and over it as many Blocks.
pub fn blocks(count: u16) -> Vec<u8> {
    let mut table = vec![1, 0, 0, 0, 3, 0, 0, 0];
    for below in 0..count {
        let [low, high] = below.to_le_bytes();
        table.extend([6, 0, low, high, 0, 0, 0, 0]);
    }
    table
}

/// MARKs to the next address, then THROW.
fn marks(count: u32) -> Vec<u8> {
    let mut code: Vec<(u8, u32)> = (0..count).map(|address| (MARK, address + 1)).collect();
    code.push(THROW);
    foreign(&code)
}

#[test]
fn blocks_511_deep() {
    let (compiled, code) = compile_into(8_184, &blocks(511));
    assert_eq!(compiled, length(1_023));
    assert_eq!(run_begun(UNBLOCKED, &code, &[0xFE, 0xFF]), number(3, 1_023, 1_023));
}

#[test]
fn nodes_513() {
    assert_eq!(compile_into(8_192, &blocks(512)).0, not_compiled(1, 0));
}

#[test]
fn push_512_times() {
    let code = foreign(&[(PUSH, 1); 512]);
    assert_eq!(run_begun(BLOCKED, &code, &[]), refused(14, 512, 512, 512));
}

#[test]
fn push_513_times() {
    let code = foreign(&[(PUSH, 1); 513]);
    assert_eq!(run_begun(BLOCKED, &code, &[]), refused(13, 512, 512, 512));
}

#[test]
fn lone_pop() {
    assert_eq!(run_begun(UNBLOCKED, &foreign(&[POP]), &[]), refused(14, 0, 0, 0));
}

/// Steps double and gain 2 with each MARK: 3 * 2^9 - 2. Instructions reached
/// double and gain 1: 2^10 - 1.
#[test]
fn marks_9() {
    assert_eq!(run_begun(BLOCKED, &marks(9), &[]), throw(1_534, 1_023));
}

/// The first MARK, then all that nine do; the tenth handler is still there.
#[test]
fn marks_10() {
    assert_eq!(run_begun(BLOCKED, &marks(10), &[]), refused(15, 0, 1_535, 1_024));
}

#[test]
fn stack_buffer_of_4095_bytes() {
    assert_eq!(run_not_begun(UNBLOCKED, &foreign(&[(PUSH, 9)]), 4_095), refused(8, 0, 0, 0));
}
