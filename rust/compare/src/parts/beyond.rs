//! Buffers far over every limit. Their lengths are powers of two and something small that would be a good length by itself, so that
//! a length of which only the low bits are looked at is found out, from 13 bits to 17.

use super::foreign::{record, POP, PUSH};
use super::lengths::openings;
use super::{Part, CODE, STACK};
use crate::layout::tower;
use crate::lent::MOST;
use crate::trial::Trial;

pub const BEYOND: Part = Part { name: "buffers far over the limits", floor: 1_600, tries: all };

const OVER: [usize; 5] = [1 << 13, 1 << 14, 1 << 15, 1 << 16, 1 << 17];

pub fn all(trial: &mut Trial) {
    trial.source = "far over the limits".to_string();
    for over in OVER {
        tables(trial, over);
        code_buffers(trial, over);
        codes(trial, over);
        stacks(trial, over);
        schedules(trial, over);
        recalls_past_all(trial, over);
    }
    everything_at_once(trial);
}

/// The front of each is a table too.
fn tables(trial: &mut Trial, over: usize) {
    let tower = tower(MOST / 8);
    let tower = tower.as_flattened();
    for small in [0, 1, 7, 8, 9, 16, 24, 256, 2048, 4088, 4096, 4104] {
        let compiled = trial.compile(&tower[..over + small], CODE);
        trial.claim("a table has at most 4,096 bytes", compiled.refusal == 1);
    }
}

/// Each has room for the code, and what is left of its length without the high bits has not.
fn code_buffers(trial: &mut Trial, over: usize) {
    let tower = tower(512);
    for nodes in [1, 2, 3, 16, 100, 256, 511, 512] {
        let exact = 8 * (2 * nodes - 1);
        for small in [0, 1, exact / 2, exact - 1, exact] {
            let compiled = trial.compile(tower[..nodes].as_flattened(), over + small);
            trial.claim("a code buffer may have any length", compiled.refusal == 0);
        }
    }
}

/// The front of each, an odd number of instructions, comes to an end.
fn codes(trial: &mut Trial, over: usize) {
    let code = [record(PUSH, 9), record(POP, 0)].concat().repeat(MOST / 16);
    for small in [0, 1, 8, 9, 24, 40, 4088, 8168, 8184, 8185] {
        let answer = trial.run(1, &code[..over + small], &[], STACK);
        trial.claim("a code has at most 8,184 bytes", answer.refusal == 9);
    }
}

fn stacks(trial: &mut Trial, over: usize) {
    for small in [0, 1, 7, 8, 64, 512, 2048, STACK - 8, STACK - 1, STACK, STACK + 1] {
        let answer = trial.run(1, &record(PUSH, 9), &[], over + small);
        trial.claim("a stack buffer may have any length from 4,096 on", answer.kind == 0);
    }
}

/// A recall at each instruction, in schedules whose length without the high bits ends before it, just at it or behind it.
fn schedules(trial: &mut Trial, over: usize) {
    let code = openings(trial);
    for k in (0..code.len() / 8).step_by(13) {
        for small in [0, k / 8, k / 8 + 1] {
            let mut schedule = vec![0; over + small];
            schedule[k / 8] = 1 << (k % 8);
            let answer = trial.run(1, &code, &schedule, STACK);
            trial.claim("the recall strikes", answer.kind == 1 && answer.reached as usize == k + 1);
        }
    }
}

/// Recalls at all instructions from the one after the last on: none is reached.
fn recalls_past_all(trial: &mut Trial, over: usize) {
    let code = openings(trial);
    let instructions = code.len() / 8;
    for small in [0, 1, 127, 128, 192] {
        let mut schedule = vec![0xff; over + small];
        schedule[..instructions / 8].fill(0);
        schedule[instructions / 8] = 0xff << (instructions % 8);
        let answer = trial.run(1, &code, &schedule, STACK);
        trial.claim("no recall strikes", answer.kind == 0 && answer.reached as usize == instructions);
    }
}

/// As long as can be lent, and all of them good but for the table's or the code's length.
fn everything_at_once(trial: &mut Trial) {
    let tower = tower(MOST / 8);
    let long = tower.as_flattened();
    for bytes in [8, 4096, 1 << 16, (1 << 16) + 8, MOST] {
        trial.compile(&long[..bytes], MOST);
        trial.run(0, &long[..bytes], long, MOST);
        trial.run(1, &record(PUSH, 9), &vec![0xff; bytes], MOST);
    }
}
