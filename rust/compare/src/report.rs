//! What is said of a comparison: a line a part, and the count that the gate reads.

use compare::tally::{Tally, TOLD};
use std::process::ExitCode;

#[derive(Default)]
pub struct Report {
    passed: u64,
    failed: u64,
    whole: Tally,
}

impl Report {
    /// A part of the comparison, which tries no fewer inputs than its floor.
    pub fn part(&mut self, name: &str, floor: u64, tally: Tally) {
        for told in tally.told() {
            println!("{told}");
        }
        let few = if tally.inputs < floor { format!(", fewer than {floor}") } else { String::new() };
        self.check(
            &format!("{name}: {} inputs{few}, {} differences", tally.inputs, tally.differences),
            tally.differences == 0 && tally.inputs >= floor,
        );
        self.whole.add(tally);
    }

    /// A program by pipe: so many inputs, and the differences, of which the first are told.
    pub fn piped(&mut self, name: &str, inputs: u64, differences: &[String]) {
        for told in differences.iter().take(TOLD) {
            println!("{told}");
        }
        let found = differences.len() as u64;
        self.check(&format!("{name}: {inputs} inputs, {found} differences"), inputs > 0 && found == 0);
        self.whole.inputs += inputs;
        self.whole.differences += found;
    }

    pub fn check(&mut self, what: &str, holds: bool) {
        if holds {
            self.passed += 1;
            println!("ok: {what}");
        } else {
            self.failed += 1;
            println!("FAILED: {what}");
        }
    }

    /// That no kind of answer was left out.
    pub fn met_everything(&mut self) {
        println!("{}", self.whole);
        self.check("every end and every refusal was met", self.whole.complete());
    }

    pub fn end(self) -> ExitCode {
        println!("{} inputs tried, {} differences", self.whole.inputs, self.whole.differences);
        println!("{} passed, {} failed", self.passed, self.failed);
        match self.failed {
            0 if self.passed > 0 => ExitCode::SUCCESS,
            _ => ExitCode::FAILURE,
        }
    }
}
