//! What is demanded of a run of compiled code, beside that all programs answer the same.

use crate::trial::Trial;
use second::expression::{End, Expression, Status};
use second::{paper, Answer};

/// It ends in a number or a throw, within 3n - 1 steps and 2n - 1 instructions.
pub fn bounds(trial: &mut Trial, nodes: usize, answer: Answer) {
    let (steps, reached) = (3 * nodes - 1, 2 * nodes - 1);
    trial.claim("ends in a number or a throw", end(answer).is_some());
    trial.claim("within 3n - 1 steps", answer.steps as usize <= steps);
    trial.claim("at most 2n - 1 instructions", answer.reached as usize <= reached);
}

/// The paper's machine comes to the same end, in as many steps.
pub fn paper(
    trial: &mut Trial,
    recipe: &Expression,
    status: Status,
    recalls: impl Fn(usize) -> bool,
    answer: Answer,
) {
    let paper::Finish { end: on_paper, steps, reached } = paper::run(recipe, status, recalls);
    trial.claim(
        "the paper's machine does the same, step for step",
        end(answer) == Some(on_paper) && answer.steps == steps && answer.reached == reached,
    );
}

/// The end of an answer that is not refused.
pub fn end(answer: Answer) -> Option<End> {
    match answer.kind {
        0 => Some(End::Number(answer.number)),
        1 => Some(End::Throw),
        _ => None,
    }
}

/// A status as a run is given it.
pub fn byte(status: Status) -> u8 {
    match status {
        Status::Blocked => 0,
        Status::Unblocked => 1,
    }
}
