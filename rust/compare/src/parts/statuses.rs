//! Every status that a byte can say: 0 and 1 are one, and all others are refused before anything else is looked at.

use super::damage::every_kind;
use super::foreign::{record, POP, PUSH};
use super::{Part, CODE, STACK};
use crate::layout::Nodes;
use crate::trial::Trial;

pub const STATUSES: Part = Part { name: "all statuses", floor: 7_600, tries: all };

pub fn all(trial: &mut Trial) {
    trial.source = "statuses".to_string();
    let nodes = Nodes::of(&every_kind());
    let compiled = trial.compile(&nodes.table(&nodes.in_order()), CODE);
    let compiled = trial.code(compiled);
    let codes = [compiled, record(PUSH, 9).to_vec(), record(POP, 0).to_vec(), vec![], vec![0; 8]];
    for status in 0..=u8::MAX {
        for code in &codes {
            for schedule in [&[][..], &[0xff; 3]] {
                for room in [0, STACK - 1, STACK] {
                    let answer = trial.run(status, code, schedule, room);
                    trial.claim("a status is 0 or 1", (answer.refusal == 7) == (status > 1));
                }
            }
        }
    }
}
