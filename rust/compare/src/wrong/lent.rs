//! Workers that go wrong by where a buffer lies; and one with all faults of such kinds, and with those of `narrow`.

// SAFETY, of every block here: the buffers are those of the call, as `Worker` asks, or shorter.

use super::narrow::{few_uses, short};
use super::{compiler, runner, Wrong, RIGHT};
use crate::parts::alignment::ALIGNMENT;
use crate::parts::beyond::BEYOND;
use crate::parts::null::NULL;
use crate::parts::statuses::STATUSES;
use crate::parts::uses::USES;
use crate::worker::{Buffer, Worker};
use second::{Answer, Compiled};

pub const WRONG: [Wrong; 7] = [
    compiler("misreads a table that is not aligned", &[ALIGNMENT], |table, code| {
        misread(unsafe { (RIGHT.compile)(table, code) }, aligned(table))
    }),
    compiler("miscounts in a code buffer that is not aligned", &[ALIGNMENT], |table, code| {
        misread(unsafe { (RIGHT.compile)(table, code) }, aligned(code))
    }),
    runner("misreads a code that is not aligned", &[ALIGNMENT], |status, code, schedule, stack| {
        mistaken(unsafe { (RIGHT.run)(status, code, schedule, stack) }, aligned(code))
    }),
    runner("misreads a schedule that is not aligned", &[ALIGNMENT], |status, code, schedule, stack| {
        mistaken(unsafe { (RIGHT.run)(status, code, schedule, stack) }, aligned(schedule))
    }),
    runner("goes wrong in a stack that is not aligned", &[ALIGNMENT], |status, code, schedule, stack| {
        mistaken(unsafe { (RIGHT.run)(status, code, schedule, stack) }, aligned(stack))
    }),
    runner("goes wrong under a null schedule", &[NULL], |status, code, schedule, stack| {
        mistaken(unsafe { (RIGHT.run)(status, code, schedule, stack) }, !schedule.start.is_null())
    }),
    Wrong {
        worker: Worker { name: "has all these faults", compile: compile_by_all, run: run_by_all },
        found_by: &[USES, BEYOND, STATUSES, ALIGNMENT, NULL],
    },
];

unsafe fn compile_by_all(table: Buffer, code: Buffer) -> Compiled {
    let compiled = unsafe { few_uses(short(table), short(code)) };
    misread(compiled, aligned(table) && aligned(code))
}

unsafe fn run_by_all(status: u8, code: Buffer, schedule: Buffer, stack: Buffer) -> Answer {
    let answer = unsafe { (RIGHT.run)(status & 3, short(code), short(schedule), short(stack)) };
    let right = aligned(code) && aligned(schedule) && aligned(stack) && !schedule.start.is_null();
    mistaken(answer, right)
}

fn aligned(buffer: Buffer) -> bool {
    buffer.start.cast::<u64>().is_aligned()
}

/// An accepted table's code is said to be an instruction longer.
fn misread(compiled: Compiled, right: bool) -> Compiled {
    Compiled { length: compiled.length + u32::from(!right && compiled.refusal == 0), ..compiled }
}

/// A run that ended is said to have taken a step more.
fn mistaken(answer: Answer, right: bool) -> Answer {
    Answer { steps: answer.steps + u32::from(!right && answer.refusal == 0), ..answer }
}
