//! Workers with another rule than document 01's.

// SAFETY, of every block here: the buffers are those of the call, as `Worker` asks, or slices of this file's.

use super::{compiler, runner, Wrong, RIGHT};
use crate::parts::limit::LIMIT;
use crate::parts::records::RECORDS;
use crate::parts::rounds::FIRST;
use crate::parts::Part;
use crate::worker::Buffer;
use second::{Answer, Compiled};

const ROUNDS: &[Part] = &[FIRST];

pub const WRONG: [Wrong; 18] = [
    compiler("refuses all tables", ROUNDS, |_, _| Compiled { length: 0, refusal: 1, place: 0 }),
    compiler("refuses by a number that no table has", ROUNDS, |table, code| {
        let compiled = unsafe { (RIGHT.compile)(table, code) };
        match compiled.refusal {
            0 => compiled,
            _ => Compiled { refusal: u32::MAX, ..compiled },
        }
    }),
    compiler("panics where it would refuse", ROUNDS, |table, code| {
        let compiled = unsafe { (RIGHT.compile)(table, code) };
        if compiled.refusal == 5 {
            // without the message of a panic
            std::panic::resume_unwind(Box::new(()));
        }
        compiled
    }),
    compiler("tests the kinds of all nodes first", &[RECORDS], |table, code| {
        let compiled = unsafe { (RIGHT.compile)(table, code) };
        let kinds = unsafe { table.bytes() }.iter().step_by(8);
        match kinds.into_iter().position(|kind| !(1..=7).contains(kind)) {
            Some(node) if matches!(compiled.refusal, 3 | 4) => {
                Compiled { length: 0, refusal: 2, place: node as u32 }
            }
            _ => compiled,
        }
    }),
    compiler("writes a byte past the code", ROUNDS, |table, code| {
        let compiled = unsafe { (RIGHT.compile)(table, code) };
        let next = unsafe { code.bytes_mut() }.get_mut(8 * compiled.length as usize);
        if let (0, Some(next)) = (compiled.refusal, next) {
            *next = 0;
        }
        compiled
    }),
    compiler("writes though it refuses", ROUNDS, |table, code| {
        let compiled = unsafe { (RIGHT.compile)(table, code) };
        if let (5, Some(first)) = (compiled.refusal, unsafe { code.bytes_mut() }.first_mut()) {
            *first = 0;
        }
        compiled
    }),
    compiler("takes Unblock for Block", ROUNDS, |table, code| {
        let compiled = unsafe { (RIGHT.compile)(table, code) };
        let written = unsafe { &mut code.bytes_mut()[..8 * compiled.length as usize] };
        for record in written.chunks_exact_mut(8) {
            if record[0] == 7 {
                record[4] = 0;
            }
        }
        compiled
    }),
    compiler("tests the code buffer first", ROUNDS, |table, code| match code.length {
        0 => Compiled { length: 0, refusal: 6, place: 0 },
        _ => unsafe { (RIGHT.compile)(table, code) },
    }),
    runner("ignores recalls", ROUNDS, |status, code, _, stack| unsafe {
        (RIGHT.run)(status, code, Buffer::to_read(&[]), stack)
    }),
    runner("reads bits from the most significant", ROUNDS, |status, code, schedule, stack| unsafe {
        let turned: Vec<u8> = schedule.bytes().iter().map(|byte| byte.reverse_bits()).collect();
        (RIGHT.run)(status, code, Buffer::to_read(&turned), stack)
    }),
    runner("recalls past the schedule's end", ROUNDS, |status, code, schedule, stack| unsafe {
        let longer = [schedule.bytes(), &[0xff; 128]].concat();
        (RIGHT.run)(status, code, Buffer::to_read(&longer), stack)
    }),
    runner("starts unblocked", ROUNDS, |status, code, schedule, stack| unsafe {
        (RIGHT.run)(status.max(1), code, schedule, stack)
    }),
    runner("counts a step that is refused", ROUNDS, |status, code, schedule, stack| {
        let answer = unsafe { (RIGHT.run)(status, code, schedule, stack) };
        Answer { steps: answer.steps + u32::from(answer.refusal == 13), ..answer }
    }),
    runner("gives 15 before an end at the limit", &[LIMIT], |status, code, schedule, stack| {
        let answer = unsafe { (RIGHT.run)(status, code, schedule, stack) };
        match answer {
            Answer { steps: 1535, refusal: 0 | 14, .. } => {
                Answer { kind: 2, number: 0, refusal: 15, place: 0, ..answer }
            }
            _ => answer,
        }
    }),
    runner("leaves the place at 0", ROUNDS, |status, code, schedule, stack| Answer {
        place: 0,
        ..unsafe { (RIGHT.run)(status, code, schedule, stack) }
    }),
    runner("leaves the last byte of the stack", ROUNDS, |status, code, schedule, stack| {
        let last = unsafe { stack.bytes() }.get(4095).copied();
        let answer = unsafe { (RIGHT.run)(status, code, schedule, stack) };
        if let Some(last) = last {
            unsafe { stack.bytes_mut()[4095] = last }
        }
        answer
    }),
    runner("clears a byte more", ROUNDS, |status, code, schedule, stack| {
        let answer = unsafe { (RIGHT.run)(status, code, schedule, stack) };
        if let (0, Some(next)) = (answer.refusal, unsafe { stack.bytes_mut() }.get_mut(4096)) {
            *next = 0;
        }
        answer
    }),
    runner("clears though it refuses", ROUNDS, |status, code, schedule, stack| {
        let answer = unsafe { (RIGHT.run)(status, code, schedule, stack) };
        if answer.refusal == 12 {
            unsafe { stack.bytes_mut()[..4096].fill(0) }
        }
        answer
    }),
];
