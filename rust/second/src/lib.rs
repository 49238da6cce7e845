//! Document 01 once more: a second reading of its rules, in ordinary Rust.
//!
//! The crate shares nothing with the proved program but the document. Both are
//! given the same inputs, and every answer and every byte of the lent buffers
//! is compared; so what is written here is written to be read, as a boxed tree,
//! vectors and enums, and not to resemble the other program.

pub mod code;
pub mod evaluation;
pub mod expression;
pub mod machine;
pub mod paper;
pub mod refusal;
pub mod rehearsal;
pub mod schedule;
pub mod table;

use code::RECORD;
use expression::{End, Status};
use refusal::{Reason, Refusal};

/// The stack buffer a run asks for: 512 items of 8 bytes (refusal 8).
pub const STACK_BYTES: usize = 4_096;

/// The answer of compiling ("Refusal numbers", below the table).
#[derive(Debug, Clone, Copy, PartialEq, Eq)]
pub struct Compiled {
    /// Instructions written, or 0 if refused.
    pub length: u32,
    /// The refusal number, or 0.
    pub refusal: u32,
    /// The place of the refusal, or 0.
    pub place: u32,
}

/// The answer of a run ("One step of the machine"); a field that doesn't apply
/// is 0.
#[derive(Debug, Clone, Copy, PartialEq, Eq)]
pub struct Answer {
    /// 0 number, 1 throw, 2 refused.
    pub kind: u32,
    /// The number of kind 0.
    pub number: i32,
    /// The refusal number of kind 2.
    pub refusal: u32,
    /// The place of the refusal.
    pub place: u32,
    /// Steps taken.
    pub steps: u32,
    /// Instructions reached, carried out or cut.
    pub reached: u32,
}

impl Answer {
    fn of_finish(finish: machine::Finish) -> Answer {
        let blank =
            Answer { kind: 0, number: 0, refusal: 0, place: 0, steps: finish.steps, reached: finish.reached };
        match finish.end {
            Ok(End::Number(number)) => Answer { number, ..blank },
            Ok(End::Throw) => Answer { kind: 1, ..blank },
            Err(refusal) => Answer { kind: 2, refusal: refusal.number(), place: refusal.place, ..blank },
        }
    }

    /// Refusals 7 to 12 come before the first step: both totals are 0.
    fn of_refusal(refusal: Refusal) -> Answer {
        Answer::of_finish(machine::Finish { end: Err(refusal), steps: 0, reached: 0 })
    }
}

/// Compiles a table into the front of the code buffer; refused, it writes
/// nothing.
pub fn compile(table: &[u8], code: &mut [u8]) -> Compiled {
    match fill(table, code) {
        Ok(length) => Compiled { length, refusal: 0, place: 0 },
        Err(refusal) => Compiled { length: 0, refusal: refusal.number(), place: refusal.place },
    }
}

/// Tests 1 to 6, and only then the bytes.
fn fill(table: &[u8], buffer: &mut [u8]) -> Result<u32, Refusal> {
    let recipe = table::read(table)?;
    let code = code::compile(&recipe);
    if buffer.len() < code.len() * RECORD {
        return Err(Reason::CodeBuffer.at(0));
    }
    for (record, instruction) in buffer.chunks_exact_mut(RECORD).zip(&code) {
        record.copy_from_slice(&instruction.bytes());
    }
    Ok(code.len() as u32)
}

/// Runs code under a schedule of recalls.
///
/// The machine here keeps its stack in a vector. Document 01 leaves the lent
/// buffer's first 4,096 bytes zero after every run that began, so they are made
/// zero (test 8 has seen that they are there); refusals 7 to 12 leave it as it
/// was.
pub fn run(status: u8, code: &[u8], schedule: &[u8], stack: &mut [u8]) -> Answer {
    match admit(status, code, stack.len()) {
        Ok((status, code)) => {
            let finish = machine::run(&code, status, |k| schedule::asks(schedule, k));
            stack[..STACK_BYTES].fill(0);
            Answer::of_finish(finish)
        }
        Err(refusal) => Answer::of_refusal(refusal),
    }
}

/// Tests 7, 8, 9, then 10 to 12 by address.
fn admit(status: u8, code: &[u8], stack_bytes: usize) -> Result<(Status, Vec<code::Instruction>), Refusal> {
    let status = Status::from_byte(status).ok_or(Reason::Status.at(0))?;
    if stack_bytes < STACK_BYTES {
        return Err(Reason::StackBuffer.at(0));
    }
    Ok((status, code::read(code)?))
}

/// The line of "The rehearsal program", with its line feed.
pub fn rehearse(input: &[u8]) -> String {
    rehearsal::line(input)
}
