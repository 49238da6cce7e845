//! Buffers of every awkward length.

use super::foreign::{record, POP, PUSH};
use super::{Part, AMPLE, CODE, STACK};
use crate::layout::{tower, Nodes};
use crate::trial::Trial;
use second::expression::Expression::{Unblock, Val};

pub const LENGTHS: Part = Part { name: "lengths", floor: 24_000, tries: all };

/// More nodes than a table may have.
const MANY: usize = 520;

pub fn all(trial: &mut Trial) {
    trial.source = "lengths".to_string();
    tables(trial);
    code_buffers(trial);
    codes(trial);
    stacks(trial);
    schedules(trial);
}

fn tables(trial: &mut Trial) {
    let tower = tower(MANY);
    let tower = tower.as_flattened();
    for bytes in 0..=tower.len() {
        let compiled = trial.compile(&tower[..bytes], CODE);
        let whole = bytes % 8 == 0 && (8..=4096).contains(&bytes);
        trial.claim("1 to 512 whole nodes are a table", (compiled.refusal == 0) == whole);
    }
}

fn code_buffers(trial: &mut Trial) {
    let tower = tower(MANY);
    for nodes in 1..=512 {
        let exact = 8 * (2 * nodes - 1);
        for room in [0, exact - 8, exact - 7, exact - 1, exact, exact + 1, exact + 8, AMPLE] {
            let compiled = trial.compile(tower[..nodes].as_flattened(), room);
            trial.claim("8 bytes an instruction are enough", (compiled.refusal == 0) == (room >= exact));
        }
    }
}

/// PUSH, POP, PUSH, POP ..: an odd number of them ends in a number, an even one in 14.
fn codes(trial: &mut Trial) {
    let code = [record(PUSH, 9), record(POP, 0)].concat().repeat(600);
    for bytes in 0..=CODE + 32 {
        let answer = trial.run(1, &code[..bytes], &[], STACK);
        trial.claim(
            "an odd number of whole instructions ends",
            (answer.kind == 0) == (bytes % 16 == 8 && bytes <= CODE),
        );
    }
}

fn stacks(trial: &mut Trial) {
    for room in (0..=STACK + 64).chain(AMPLE - 64..=AMPLE) {
        let answer = trial.run(1, &record(PUSH, 9), &[], room);
        trial.claim("a stack of 4,096 bytes is enough", (answer.kind == 0) == (room >= STACK));
    }
}

/// The code of Unblocks over a Val: 1,023 instructions, each of which a recall cuts.
pub fn openings(trial: &mut Trial) -> Vec<u8> {
    let openings = (1..512).fold(Val(9), |opened, _| Unblock(Box::new(opened)));
    let nodes = Nodes::of(&openings);
    let compiled = trial.compile(&nodes.table(&nodes.in_order()), CODE);
    trial.code(compiled)
}

/// One recall, at the last bit of a schedule of each length: it strikes as long as its instruction is one of the 1,023.
fn schedules(trial: &mut Trial) {
    let code = openings(trial);
    for bytes in 0..=4000 {
        let mut schedule = vec![0; bytes];
        if let Some(last) = schedule.last_mut() {
            *last = 0x80;
        }
        let answer = trial.run(1, &code, &schedule, STACK);
        let strikes = (1..=127).contains(&bytes);
        trial.claim("a recall strikes where it is placed", answer.kind == u32::from(strikes));
    }
}
