//! Workers that write a byte beside a buffer, or into one that they may only read. Their answers are right, so that nothing but the
//! guard bytes and the bytes of the inputs can find them.
//!
//! They ask for more than other workers: inputs may be written, and where a byte beside a buffer is, it may be written too. The
//! parts that are meant for them lend all buffers with guard bytes on that side.

// SAFETY, of every block here: the buffers are those of the call, and the byte that is turned is one of those named above.

use super::{compiler, runner, Wrong, RIGHT};
use crate::parts::sides::{AMID, BACK, FRONT};
use crate::parts::Part;
use crate::worker::Buffer;

const BEFORE: &[Part] = &[BACK, AMID];
const AFTER: &[Part] = &[FRONT, AMID];
const WITHIN: &[Part] = &[FRONT, BACK, AMID];

pub const WRONG: [Wrong; 11] = [
    compiler("writes before the code buffer", BEFORE, |table, code| unsafe {
        turn(code, -1);
        (RIGHT.compile)(table, code)
    }),
    compiler("writes after the code buffer", AFTER, |table, code| unsafe {
        turn(code, code.length as isize);
        (RIGHT.compile)(table, code)
    }),
    compiler("writes before the table", BEFORE, |table, code| unsafe {
        turn(table, -1);
        (RIGHT.compile)(table, code)
    }),
    compiler("writes after the table", AFTER, |table, code| unsafe {
        turn(table, table.length as isize);
        (RIGHT.compile)(table, code)
    }),
    compiler("writes into the table", WITHIN, |table, code| unsafe {
        let compiled = (RIGHT.compile)(table, code);
        turn_last(table);
        compiled
    }),
    runner("writes before the stack", BEFORE, |status, code, schedule, stack| unsafe {
        turn(stack, -1);
        (RIGHT.run)(status, code, schedule, stack)
    }),
    runner("writes after the stack", AFTER, |status, code, schedule, stack| unsafe {
        turn(stack, stack.length as isize);
        (RIGHT.run)(status, code, schedule, stack)
    }),
    runner("writes before the schedule", BEFORE, |status, code, schedule, stack| unsafe {
        turn(schedule, -1);
        (RIGHT.run)(status, code, schedule, stack)
    }),
    runner("writes after the code", AFTER, |status, code, schedule, stack| unsafe {
        turn(code, code.length as isize);
        (RIGHT.run)(status, code, schedule, stack)
    }),
    runner("writes into the code", WITHIN, |status, code, schedule, stack| unsafe {
        let answer = (RIGHT.run)(status, code, schedule, stack);
        turn_last(code);
        answer
    }),
    runner("writes into the schedule", WITHIN, |status, code, schedule, stack| unsafe {
        let answer = (RIGHT.run)(status, code, schedule, stack);
        turn_last(schedule);
        answer
    }),
];

/// Writes another value than it has into the byte so far from a buffer's first.
unsafe fn turn(buffer: Buffer, at: isize) {
    unsafe {
        let byte = buffer.start.offset(at);
        *byte = !*byte;
    }
}

unsafe fn turn_last(buffer: Buffer) {
    if buffer.length > 0 {
        unsafe { turn(buffer, buffer.length as isize - 1) }
    }
}
