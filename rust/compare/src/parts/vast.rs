//! Lengths that 32 bits cannot say: a buffer of each kind, 4 GiB and a few bytes long, so that a length of which only the low 32
//! bits are looked at is found out.

use super::foreign::{record, PUSH};
use super::{Part, CODE, STACK};
use crate::layout::tower;
use crate::trial::Trial;
use crate::vast::{Vast, OVER};

pub const VAST: Part = Part { name: "buffers past 32 bits", floor: 20, tries: all };

/// More recalls than a run reaches.
const RECALLS: usize = 192;

/// What a call is lent, and what the second program is lent to write.
struct Memory {
    input: Vast,
    schedule: Vast,
    output: Vast,
    wanted: Vast,
}

pub fn all(trial: &mut Trial) {
    trial.source = "past 32 bits".to_string();
    let memory = &mut Memory {
        input: Vast::nothing(),
        schedule: Vast::nothing(),
        output: Vast::nothing(),
        wanted: Vast::nothing(),
    };
    let table = tower(3);
    for small in [0, 8, 24] {
        compile(trial, memory, table.as_flattened(), OVER + small, CODE);
        compile(trial, memory, table.as_flattened(), 24, OVER + small);
    }
    let code = record(PUSH, 9);
    let quiet = [0; RECALLS];
    let recalled = [&[1], &quiet[1..]].concat();
    for small in [0, 8, STACK - 1, STACK] {
        run(trial, memory, (&code, OVER + small), (&quiet, RECALLS), STACK);
        run(trial, memory, (&code, 8), (&quiet, RECALLS), OVER + small);
        run(trial, memory, (&code, 8), (&recalled, OVER + small), STACK);
        run(trial, memory, (&code, 8), (&quiet, OVER + small.max(RECALLS)), STACK);
    }
}

/// Each with the length that it is given.
fn compile(trial: &mut Trial, memory: &mut Memory, table: &[u8], length: usize, room: usize) {
    let lent_table = memory.input.lend(table, length);
    let wanted = memory.wanted.lend(&[], room);
    // SAFETY: lent apart; the second program writes no more than the front.
    let answer = unsafe { second::compile(lent_table.bytes(), wanted.bytes_mut()) };
    trial.tally.compiled(answer);
    for worker in trial.workers() {
        let code = memory.output.lend(&[], room);
        // SAFETY: as above, and so do workers; one that does not is stopped.
        let given = unsafe { (worker.compile)(lent_table, code) };
        let written = memory.output.front() == memory.wanted.front();
        let same = given == answer && written && memory.input.holds(table);
        trial.claim(
            &format!("{} compiles {length} bytes into {room}: {answer:?}, {given:?}", worker.name),
            same,
        );
    }
}

/// A code and a schedule, each with its length, and so much room for the stack.
fn run(trial: &mut Trial, memory: &mut Memory, code: (&[u8], usize), schedule: (&[u8], usize), room: usize) {
    let lent_code = memory.input.lend(code.0, code.1);
    let lent_schedule = memory.schedule.lend(schedule.0, schedule.1);
    let wanted = memory.wanted.lend(&[], room);
    // SAFETY: lent apart; the second program writes no more than the front.
    let answer = unsafe { second::run(1, lent_code.bytes(), lent_schedule.bytes(), wanted.bytes_mut()) };
    trial.tally.ran(answer);
    for worker in trial.workers() {
        let stack = memory.output.lend(&[], room);
        // SAFETY: as above, and so do workers; one that does not is stopped.
        let given = unsafe { (worker.run)(1, lent_code, lent_schedule, stack) };
        let written = memory.output.front() == memory.wanted.front();
        let same =
            given == answer && written && memory.input.holds(code.0) && memory.schedule.holds(schedule.0);
        let lengths = (code.1, schedule.1, room);
        trial.claim(&format!("{} runs lengths {lengths:?}: {answer:?}, {given:?}", worker.name), same);
    }
}
