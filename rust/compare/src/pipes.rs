//! The programs that are compared by pipe.

use crate::report::Report;
use compare::parts::evaluation::{self, Case};
use compare::parts::rehearsal;
use std::ops::RangeInclusive;

/// Inputs of the rehearsal program, and tables for the evaluation.
const REHEARSALS: u64 = 400;
const EVALUATIONS: u64 = 4_000;
/// One in so many at least is a number, a throw, a refusal.
const RARE: usize = 10;

pub fn all(report: &mut Report, rehearse: &str, cases: &str, seed: u64) {
    exchanged(report, rehearse, cases, seed);
    let numbers = 0..=REHEARSALS - 1;
    let wanted = numbers.clone().map(|number| second::rehearse(&rehearsal::numbered(seed, number)));
    every_kind(report, "rehearsals", wanted.collect());
    rehearsals(report, rehearse, seed, numbers);
    let numbers = 0..=EVALUATIONS - 1;
    let wanted = numbers.clone().map(|number| Case::numbered(seed, number).quiet());
    every_kind(report, "evaluations", wanted.collect());
    evaluations(report, cases, seed, numbers);
}

pub fn rehearsals(report: &mut Report, program: &str, seed: u64, numbers: RangeInclusive<u64>) {
    let mut tried = 0;
    let mut differences = Vec::new();
    for number in numbers {
        tried += 1;
        let differs = rehearsal::differs(program, &rehearsal::numbered(seed, number));
        differences.extend(differs.map(|how| format!("seed {seed} rehearsal {number}: {how}")));
    }
    report.piped("rehearsals by pipe", tried, &differences);
}

pub fn evaluations(report: &mut Report, program: &str, seed: u64, numbers: RangeInclusive<u64>) {
    let mut tried = 0;
    let mut differences = Vec::new();
    for batch in evaluation::batches(numbers.map(|number| Case::numbered(seed, number))) {
        tried += batch.len() as u64;
        let found = evaluation::differences(program, &batch);
        differences.extend(found.into_iter().map(|how| format!("seed {seed} {how}")));
    }
    report.piped("evaluations by pipe", tried, &differences);
}

/// Each program in the other's place writes something else, which has to be found.
fn exchanged(report: &mut Report, rehearse: &str, cases: &str, seed: u64) {
    let rehearsed = rehearsal::differs(cases, &rehearsal::numbered(seed, 0));
    report.check("another program's rehearsal is found out", rehearsed.is_some());
    let evaluated = evaluation::differences(rehearse, &[Case::numbered(seed, 0)]);
    report.check("another program's evaluation is found out", !evaluated.is_empty());
}

/// That none of the three kinds of lines is rare.
fn every_kind(report: &mut Report, name: &str, lines: Vec<String>) {
    let [numbers, throws, refusals] =
        ["number", "throw", "refused"].map(|kind| lines.iter().filter(|line| line.starts_with(kind)).count());
    report.check(
        &format!("{name} of every kind: {numbers} numbers, {throws} throws, {refusals} refusals"),
        [numbers, throws, refusals].iter().all(|met| met * RARE >= lines.len()),
    );
}
