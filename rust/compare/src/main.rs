//! compare quick REHEARSE CASES [SEED]       what `make test` tries, in less than a minute; the two are the programs of these names
//! compare long N [SEED]                     recipes of a node more, and rounds until N inputs are tried, with a line of progress
//! compare round SEED NUMBER                 one round once more
//! compare rehearsal REHEARSE SEED NUMBER    one rehearsal once more
//! compare evaluation CASES SEED NUMBER      one evaluation once more
//! compare touch PLACE HOW                   reads or writes the byte beside a buffer, which stops it (front, back) or not (amid)
//!
//! The last line is 'N passed, M failed'. A word that is not understood is told on standard error, and the exit status is 2.

mod arguments;
mod misunderstood;
mod pipes;
mod report;
mod threads;
mod touch;

use arguments::{Task, USAGE};
use compare::parts::{rounds, small, Part, FIXED};
use compare::tally::Tally;
use compare::trial::Trial;
use compare::worker::{Worker, BASELINE, LIBRARY};
use compare::wrong;
use report::Report;
use std::process::ExitCode;

/// Compared with the second program.
pub const WORKERS: [Worker; 2] = [LIBRARY, BASELINE];
/// Inputs of the quick part's rounds.
const QUICK: u64 = 3_000_000;

fn main() -> ExitCode {
    let words: Vec<String> = std::env::args().skip(1).collect();
    let words: Vec<&str> = words.iter().map(String::as_str).collect();
    match arguments::task(&words) {
        Ok(Task::Quick { rehearse, cases, seed }) => quick(&rehearse, &cases, seed),
        Ok(Task::Long { inputs, seed }) => tried(Report::default(), small::FIVE, inputs, seed),
        Ok(Task::Round { seed, number }) => one_round(seed, number),
        Ok(Task::Rehearsal { program, seed, number }) => one_rehearsal(&program, seed, number),
        Ok(Task::Evaluation { program, seed, number }) => one_evaluation(&program, seed, number),
        Ok(Task::Touch { place, touched }) => touch::touch(place, touched),
        Err(sentence) => {
            eprintln!("compare: {sentence}\n{USAGE}");
            ExitCode::from(2)
        }
    }
}

fn quick(rehearse: &str, cases: &str, seed: u64) -> ExitCode {
    let mut report = Report::default();
    wrong_workers(&mut report);
    touched_pages(&mut report);
    misunderstood::all(&mut report);
    pipes::all(&mut report, rehearse, cases, seed);
    tried(report, small::FOUR, QUICK, seed)
}

fn one_round(seed: u64, number: u64) -> ExitCode {
    let mut report = Report::default();
    report.part(&format!("round {number}"), 1, tally(|trial| rounds::round(trial, seed, number)));
    report.end()
}

fn one_rehearsal(program: &str, seed: u64, number: u64) -> ExitCode {
    let mut report = Report::default();
    pipes::rehearsals(&mut report, program, seed, number..=number);
    report.end()
}

fn one_evaluation(program: &str, seed: u64, number: u64) -> ExitCode {
    let mut report = Report::default();
    pipes::evaluations(&mut report, program, seed, number..=number);
    report.end()
}

fn tried(mut report: Report, small: Part, inputs: u64, seed: u64) -> ExitCode {
    for part in [small].into_iter().chain(FIXED) {
        report.part(part.name, part.floor, tally(part.tries));
    }
    report.part(&format!("rounds of seed {seed}"), inputs, threads::rounds(inputs, seed));
    report.met_everything();
    report.end()
}

fn tally(tries: impl FnOnce(&mut Trial)) -> Tally {
    let mut trial = Trial::new(&WORKERS);
    tries(&mut trial);
    trial.tally
}

/// Each wrong worker has to be found by each part that is meant for it, and some part is.
fn wrong_workers(report: &mut Report) {
    for wrong in wrong::all() {
        let name = wrong.worker.name;
        if wrong.found_by.is_empty() {
            report.check(&format!("a worker that {name} has a part that is meant for it"), false);
        }
        for part in wrong.found_by {
            let mut trial = Trial::new(&[wrong.worker]);
            (part.tries)(&mut trial);
            let found = trial.tally.differences > 0;
            report.check(&format!("a worker that {name} is found out: {}", part.name), found);
        }
    }
}

/// A page beside a buffer stops what touches it, and guard bytes do not.
fn touched_pages(report: &mut Report) {
    for place in ["front", "back", "amid"] {
        for touched in ["read", "write"] {
            let stops = place != "amid";
            let stopped = touch::stopped(place, touched).is_ok_and(|stopped| stopped == stops);
            let what = if stops { "is stopped" } else { "goes on" };
            report.check(&format!("{place}: a {touched} beside a buffer {what}"), stopped);
        }
    }
}
