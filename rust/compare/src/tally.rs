//! What was tried, what it came to, and where a worker differed.

use second::refusal::Reason;
use second::{Answer, Compiled};
use std::fmt::{self, Display, Formatter};

/// Differences that are told in full; the others are counted.
pub const TOLD: usize = 3;
/// The last row of document 01's table of refusals.
const MOST_REFUSAL: usize = Reason::Steps as usize;

#[derive(Default, Clone)]
pub struct Tally {
    pub inputs: u64,
    pub differences: u64,
    told: Vec<String>,
    /// Accepted tables, and numbers and throws.
    accepted: u64,
    ends: [u64; 2],
    /// By number; the first stays 0.
    refusals: [u64; MOST_REFUSAL + 1],
    /// Answers that document 01 has no number for.
    unknown: u64,
}

impl Tally {
    pub fn compiled(&mut self, answer: Compiled) {
        self.inputs += 1;
        match answer.refusal {
            0 => self.accepted += 1,
            refusal => self.refused(refusal),
        }
    }

    pub fn ran(&mut self, answer: Answer) {
        self.inputs += 1;
        match (answer.refusal, self.ends.get_mut(answer.kind as usize)) {
            (0, Some(met)) => *met += 1,
            (refusal, _) => self.refused(refusal),
        }
    }

    fn refused(&mut self, refusal: u32) {
        match self.refusals.get_mut(refusal as usize) {
            Some(met) if refusal > 0 => *met += 1,
            _ => self.unknown += 1,
        }
    }

    pub fn differs(&mut self, how: impl FnOnce() -> String) {
        self.differences += 1;
        if self.told.len() < TOLD {
            self.told.push(how());
        }
    }

    pub fn add(&mut self, other: Tally) {
        self.inputs += other.inputs;
        self.differences += other.differences;
        self.accepted += other.accepted;
        add(&mut self.ends, other.ends);
        add(&mut self.refusals, other.refusals);
        self.unknown += other.unknown;
        self.told.extend(other.told);
        self.told.truncate(TOLD);
    }

    /// Whether every end and every refusal was met, and no other answer.
    pub fn complete(&self) -> bool {
        let met = self.ends.iter().chain(&self.refusals[1..]);
        self.accepted > 0 && self.unknown == 0 && met.into_iter().all(|&met| met > 0)
    }

    pub fn told(&self) -> &[String] {
        &self.told
    }
}

fn add<const N: usize>(to: &mut [u64; N], of: [u64; N]) {
    for (to, of) in to.iter_mut().zip(of) {
        *to += of;
    }
}

/// What the inputs came to, by kind of answer.
impl Display for Tally {
    fn fmt(&self, line: &mut Formatter<'_>) -> fmt::Result {
        write!(
            line,
            "{} tables compiled, {} numbers, {} throws; refusals",
            self.accepted, self.ends[0], self.ends[1]
        )?;
        for (number, met) in self.refusals.iter().enumerate().skip(1) {
            write!(line, " {number}: {met}")?;
        }
        Ok(())
    }
}
