//! The rehearsal program's line (document 01, "The rehearsal program").

use crate::code::RECORD;
use crate::refusal::Reason;
use crate::{compile, run, STACK_BYTES};

/// The input that counts.
const INPUT_BYTES: usize = 8_192;

/// Room for the code of 512 nodes.
const CODE_BYTES: usize = 8_184;

/// Compiles, runs, and tells the answer in one line.
pub fn line(input: &[u8]) -> String {
    let counting = &input[..input.len().min(INPUT_BYTES)];
    match parts(counting) {
        Some((status, table, schedule)) => answer(status, table, schedule),
        None => refused(Reason::TableBytes as u32, 0),
    }
}

/// Status, table and schedule, unless the input is under 3 bytes or shorter
/// than it announces.
fn parts(input: &[u8]) -> Option<(u8, &[u8], &[u8])> {
    let (&status, rest) = input.split_first()?;
    let (length, rest) = rest.split_first_chunk::<2>()?;
    let (table, schedule) = rest.split_at_checked(usize::from(u16::from_le_bytes(*length)))?;
    Some((status, table, schedule))
}

fn answer(status: u8, table: &[u8], schedule: &[u8]) -> String {
    let mut code = [0; CODE_BYTES];
    let compiled = compile(table, &mut code);
    if compiled.refusal != 0 {
        return refused(compiled.refusal, compiled.place);
    }
    let mut stack = [0; STACK_BYTES];
    let written = &code[..compiled.length as usize * RECORD];
    let answer = run(status, written, schedule, &mut stack);
    let (steps, reached) = (answer.steps, answer.reached);
    match answer.kind {
        0 => format!("number {} steps {steps} reached {reached}\n", answer.number),
        1 => format!("throw steps {steps} reached {reached}\n"),
        _ => refused(answer.refusal, answer.place),
    }
}

fn refused(refusal: u32, place: u32) -> String {
    format!("refused {refusal} at {place}\n")
}
