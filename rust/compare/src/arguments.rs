//! What the words of the command line ask for.

use compare::lent::Place;
use std::path::Path;

pub enum Task {
    Quick { rehearse: String, cases: String, seed: u64 },
    Long { inputs: u64, seed: u64 },
    Round { seed: u64, number: u64 },
    Rehearsal { program: String, seed: u64, number: u64 },
    Evaluation { program: String, seed: u64, number: u64 },
    Touch { place: Place, touched: Touched },
}

/// How a byte beside a buffer is touched.
#[derive(Clone, Copy)]
pub enum Touched {
    Read,
    Written,
}

/// Where none is named.
const SEED: u64 = 1;

pub const USAGE: &str = "usage: compare quick REHEARSE CASES [SEED] | long N [SEED] | round SEED NUMBER \
    | rehearsal REHEARSE SEED NUMBER | evaluation CASES SEED NUMBER | touch front|back|amid read|write";

/// The task, or a sentence that says which word is wrong.
pub fn task(words: &[&str]) -> Result<Task, String> {
    match *words {
        ["quick", rehearse, cases, ref seed @ ..] if seed.len() < 2 => Ok(Task::Quick {
            rehearse: program(rehearse)?,
            cases: program(cases)?,
            seed: seed_or_first(seed)?,
        }),
        ["long", inputs, ref seed @ ..] if seed.len() < 2 => match number(inputs)? {
            0 => Err("there has to be an input".to_string()),
            inputs => Ok(Task::Long { inputs, seed: seed_or_first(seed)? }),
        },
        ["round", seed, round] => Ok(Task::Round { seed: number(seed)?, number: number(round)? }),
        ["rehearsal", rehearse, seed, input] => {
            Ok(Task::Rehearsal { program: program(rehearse)?, seed: number(seed)?, number: number(input)? })
        }
        ["evaluation", cases, seed, case] => {
            Ok(Task::Evaluation { program: program(cases)?, seed: number(seed)?, number: number(case)? })
        }
        ["touch", place, touched] => touch(place, touched),
        [] => Err("nothing is asked for".to_string()),
        [first, ..] => Err(format!("'{first}' is no task, or has too few words after it, or too many")),
    }
}

fn touch(place: &str, touched: &str) -> Result<Task, String> {
    let place = match place {
        "front" => Place::Front,
        "back" => Place::Back,
        "amid" => Place::Amid(0),
        _ => return Err(format!("'{place}' is not front, back or amid")),
    };
    let touched = match touched {
        "read" => Touched::Read,
        "write" => Touched::Written,
        _ => return Err(format!("'{touched}' is not read or write")),
    };
    Ok(Task::Touch { place, touched })
}

fn seed_or_first(seed: &[&str]) -> Result<u64, String> {
    seed.first().map_or(Ok(SEED), |seed| number(seed))
}

fn number(word: &str) -> Result<u64, String> {
    word.parse().map_err(|_| format!("'{word}' is not a number from 0 on"))
}

fn program(path: &str) -> Result<String, String> {
    match Path::new(path).is_file() {
        true => Ok(path.to_string()),
        false => Err(format!("there is no program '{path}'")),
    }
}
