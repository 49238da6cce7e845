//! The proved evaluation, which is the end when no recall comes, straight from a table: by pipe, through the program `cases`, which
//! writes it beside what compiling answers. Its script and its lines are explained in `crates/cases/stdin`.

use super::damage::damage;
use super::recalled::{nodes, recipe};
use super::records::nearly_right;
use super::CODE;
use crate::chance::Chance;
use crate::layout;
use crate::piped;
use second::evaluation::permitted;
use second::expression::{End, Expression, Status};
use second::{code, machine, paper, table};
use std::collections::BTreeSet;
use std::fmt::Write;

/// The program reads so much of a script, and lends at most so much room for code.
const SCRIPT: usize = 65_536;
const ROOM: usize = CODE + 16;
/// Recipes of more nodes may permit more ends than can be listed.
const FEW: usize = 12;

/// A table, and the room for its code.
pub struct Case {
    pub number: u64,
    table: Vec<u8>,
    room: usize,
}

impl Case {
    /// The case of a number, which can be made again: a recipe, damaged at times, or records that are nearly right.
    pub fn numbered(seed: u64, number: u64) -> Case {
        let chance = &mut Chance::of_round(seed, number);
        let nodes = nodes(chance);
        let mut table = match chance.below(4) {
            0 => nearly_right(nodes, chance),
            _ => layout::table(&recipe(nodes, chance), chance),
        };
        if chance.one_in(4) {
            damage(&mut table, chance);
        }
        let room = if chance.one_in(4) { chance.between(0, ROOM) } else { CODE };
        Case { number, table, room }
    }

    pub fn script(&self) -> String {
        let mut script = format!("case {}\n", self.number);
        for record in self.table.chunks(8) {
            for byte in record {
                write!(script, " {byte:02x}").expect("a string grows");
            }
            script.push('\n');
        }
        script + &format!("compile {}\n", self.room)
    }

    /// The line that the second program wants of it.
    fn wanted(&self) -> String {
        let compiled = second::compile(&self.table, &mut vec![0; self.room]);
        let answer = match compiled.refusal {
            0 => {
                let later = self.room - 8 * compiled.length as usize;
                format!("length {}, {later} bytes after it untouched", compiled.length)
            }
            refusal => format!("refused {refusal} at {}, buffer untouched", compiled.place),
        };
        format!("{}: {answer}, quiet {}", self.number, self.quiet())
    }

    /// Its end when no recall comes, or its refusal.
    pub fn quiet(&self) -> String {
        match table::read(&self.table) {
            Ok(recipe) => quiet(&recipe),
            Err(refusal) => format!("refused {} at {}", refusal.number(), refusal.place),
        }
    }
}

/// The end when no recall comes, by every account that the second program has: both machines from both statuses, and, where there
/// are few, the ends that the rules permit.
fn quiet(recipe: &Expression) -> String {
    let code = code::compile(recipe);
    let statuses = [Status::Blocked, Status::Unblocked];
    let mut ends = BTreeSet::new();
    for status in statuses {
        ends.extend(machine::run(&code, status, |_| false).end);
        ends.insert(paper::run(recipe, status, |_| false).end);
    }
    let may = |end: &End| statuses.iter().all(|&status| permitted(recipe, status).contains(end));
    match ends.first() {
        Some(end) if ends.len() == 1 && (recipe.nodes() > FEW || may(end)) => match end {
            End::Number(number) => format!("number {number}"),
            End::Throw => "throw".to_string(),
        },
        _ => format!("ends that the second program does not agree on: {ends:?}"),
    }
}

/// Cases in batches, each as long a script as the program reads.
pub fn batches(cases: impl Iterator<Item = Case>) -> Vec<Vec<Case>> {
    let mut batches: Vec<Vec<Case>> = vec![vec![]];
    let mut length = 0;
    for case in cases {
        let more = case.script().len();
        if length + more > SCRIPT {
            batches.push(vec![]);
            length = 0;
        }
        length += more;
        batches.last_mut().expect("a batch").push(case);
    }
    batches
}

/// Where the program writes another line of a case than the second program wants, with the case.
pub fn differences(program: &str, batch: &[Case]) -> Vec<String> {
    let script: String = batch.iter().map(Case::script).collect();
    let written = match piped::written(program, script.as_bytes()) {
        Ok(written) => written,
        Err(error) => return vec![error.to_string()],
    };
    let mut lines = written.lines();
    let mut found = Vec::new();
    for case in batch {
        let (wanted, line) = (case.wanted(), lines.next().unwrap_or("(nothing)"));
        if line != wanted {
            found.push(format!(
                "evaluation {}:\n{}  wanted {wanted}\n  written {line}",
                case.number,
                case.script()
            ));
        }
    }
    found.extend(lines.map(|line| format!("a line that no case asked for: {line}")));
    found
}
