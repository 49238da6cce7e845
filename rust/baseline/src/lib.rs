//! A plain compiler and runner for the recipes of document 01.
//!
//! Both work straight on the lent bytes and never allocate. Every test is
//! made in the order of document 01; no input makes them panic.

mod code;
mod compile;
mod item;
mod run;
mod state;
mod table;

/// The code length in instructions, or 0 with the refusal and its place.
#[derive(Debug, Clone, Copy, PartialEq, Eq)]
pub struct Compiled {
    pub length: u32,
    pub refusal: u32,
    pub place: u32,
}

/// How a run ended: kind 0 is a number, 1 a throw, 2 a refusal.
#[derive(Debug, Clone, Copy, PartialEq, Eq)]
pub struct Answer {
    pub kind: u32,
    pub number: i32,
    pub refusal: u32,
    pub place: u32,
    pub steps: u32,
    pub reached: u32,
}

/// A refusal number with its place, as document 01 lists them.
#[derive(Clone, Copy)]
struct Refusal {
    number: u32,
    place: usize,
}

impl Refusal {
    #[inline(always)]
    fn at(place: usize, number: u32) -> Self {
        Self { number, place }
    }
}

/// Compiles a recipe table to the front of the code buffer; refused, it
/// writes nothing.
#[inline(never)]
pub fn compile(table: &[u8], code: &mut [u8]) -> Compiled {
    match compile::compile(table, code) {
        Ok(length) => Compiled { length: length as u32, refusal: 0, place: 0 },
        Err(refusal) => Compiled { length: 0, refusal: refusal.number, place: refusal.place as u32 },
    }
}

/// Runs any code bytes from a status under a schedule of recalls. Refusals
/// 7 to 12 write nothing; otherwise the first 4,096 bytes of the stack
/// buffer are zero afterwards.
#[inline(never)]
pub fn run(status: u8, code: &[u8], schedule: &[u8], stack: &mut [u8]) -> Answer {
    run::run(status, code, schedule, stack)
}
