//! Answers in few words.

use second::{Answer, Compiled};

pub fn number(number: i32, steps: u32, reached: u32) -> Answer {
    Answer { kind: 0, number, refusal: 0, place: 0, steps, reached }
}

pub fn throw(steps: u32, reached: u32) -> Answer {
    Answer { kind: 1, number: 0, refusal: 0, place: 0, steps, reached }
}

pub fn refused(refusal: u32, place: u32, steps: u32, reached: u32) -> Answer {
    Answer { kind: 2, number: 0, refusal, place, steps, reached }
}

pub fn length(length: u32) -> Compiled {
    Compiled { length, refusal: 0, place: 0 }
}

pub fn not_compiled(refusal: u32, place: u32) -> Compiled {
    Compiled { length: 0, refusal, place }
}
