//! The run: its tests, the loop over steps, and the answer.

use crate::code::{self, Instruction};
use crate::item::{Stack, NUMBER};
use crate::state::State;
use crate::{Answer, Refusal};

/// How a run ends.
enum End {
    Number(i32),
    Throw,
    Refused(Refusal),
}

#[inline(always)]
pub fn run(status: u8, code: &[u8], schedule: &[u8], stack: &mut [u8]) -> Answer {
    if status > 1 {
        return refused(Refusal::at(0, 7));
    }
    let Some(stack) = stack.as_chunks_mut::<8>().0.first_chunk_mut() else {
        return refused(Refusal::at(0, 8));
    };
    let code = match code::check(code, State::CODE) {
        Ok(code) => code,
        Err(refusal) => return refused(refusal),
    };
    // The part that a run can reach, copied so that its length is fixed.
    let mut recalls = [0; 256];
    let part = &schedule[..schedule.len().min(State::STEPS.div_ceil(8) as usize)];
    recalls[..part.len()].copy_from_slice(part);

    let mut state = State::fresh(status);
    let end = 'run: loop {
        let Some(record) = code.get(state.address) else {
            break at_length(state, stack);
        };
        if state.steps == State::STEPS {
            break End::Refused(Refusal::at(0, 15));
        }
        state = match state.step(Instruction::read(record), &recalls, stack) {
            Ok(next) => next,
            Err(number) => break End::Refused(Refusal::at(state.address, number)),
        };
        while state.unwinding {
            let Some(top) = state.top(stack) else {
                break 'run End::Throw;
            };
            if state.steps == State::STEPS {
                break 'run End::Refused(Refusal::at(0, 15));
            }
            state = state.unwind(top);
        }
    };
    *stack = [[0; 8]; State::ITEMS];
    answer(end, state)
}

/// The end at the length: exactly one number, or refusal 14.
#[inline(always)]
fn at_length(state: State, stack: &Stack) -> End {
    match state.top(stack) {
        Some(x) if state.height == 1 && x.sort() == NUMBER => End::Number(x.value() as i32),
        _ => End::Refused(Refusal::at(state.address, 14)),
    }
}

/// The answer to a refusal before the first step.
#[inline(always)]
fn refused(refusal: Refusal) -> Answer {
    answer(End::Refused(refusal), State::fresh(0))
}

/// The answer to an end, with the counts of the last state.
#[inline(always)]
fn answer(end: End, state: State) -> Answer {
    let blank =
        Answer { kind: 0, number: 0, refusal: 0, place: 0, steps: state.steps, reached: state.reached };
    match end {
        End::Number(number) => Answer { number, ..blank },
        End::Throw => Answer { kind: 1, ..blank },
        End::Refused(refusal) => {
            Answer { kind: 2, refusal: refusal.number, place: refusal.place as u32, ..blank }
        }
    }
}
