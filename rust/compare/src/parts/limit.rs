//! Runs that come to the step limit: an end, a refusal, a recall or one more step at 1,535 steps, and on both sides of it.

use super::foreign::{self, ADD, MARK, POP, PUSH, THROW};
use super::{Part, STACK};
use crate::trial::Trial;

pub const LIMIT: Part = Part { name: "at the step limit", floor: 9_800, tries: all };

/// MARKs in a row, each with the next address as target, then THROW: m of them take 3 * 2^m - 2 steps, 766 here.
const MARKS: usize = 8;

/// Straight instructions that, with the marks, come to the limit or near it.
const STRAIGHT: std::ops::RangeInclusive<usize> = 750..=790;

pub fn all(trial: &mut Trial) {
    for straight in STRAIGHT {
        trial.source = format!("{straight} instructions, and marks");
        for kept in [0, 1, 2, 511, 512] {
            for last in [PUSH, THROW, ADD, POP] {
                marks_last(trial, straight, kept, last);
                marks_first(trial, straight, kept, last);
            }
        }
    }
}

/// Straight on, then into the marks, whose throw ends the run or meets the limit on its way.
fn marks_last(trial: &mut Trial, straight: usize, kept: usize, last: u8) {
    let mut code = straight_on(straight, kept);
    append_marks(&mut code, last);
    run(trial, &code);
}

/// The marks under one more handler, whose code goes straight on to the end.
fn marks_first(trial: &mut Trial, straight: usize, kept: usize, last: u8) {
    let mut code = vec![foreign::record(MARK, MARKS as u32 + 2)];
    append_marks(&mut code, THROW);
    code.extend(straight_on(straight, kept));
    run(trial, &code);
    code.push(foreign::record(last, 0));
    run(trial, &code);
}

/// PUSH, POP, PUSH .., and at last PUSHes alone, so that some numbers are kept.
fn straight_on(instructions: usize, kept: usize) -> Vec<[u8; 8]> {
    let pairs = (0..instructions - kept).map(|k| foreign::record([PUSH, POP][k % 2], 0));
    pairs.chain((0..kept).map(|_| foreign::record(PUSH, 0))).collect()
}

fn append_marks(code: &mut Vec<[u8; 8]>, last: u8) {
    for _ in 0..MARKS {
        code.push(foreign::record(MARK, code.len() as u32 + 1));
    }
    code.push(foreign::record(last, 0));
}

/// With no recall, and with one at each of the last instructions reached.
fn run(trial: &mut Trial, code: &[[u8; 8]]) {
    let code = code.as_flattened();
    let quiet = trial.run(1, code, &[], STACK);
    for k in quiet.reached.saturating_sub(2)..=quiet.reached {
        let mut schedule = [0; 192];
        schedule[k as usize / 8] = 1 << (k % 8);
        trial.run(1, code, &schedule, STACK);
    }
}
