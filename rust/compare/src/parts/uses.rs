//! Tables in which a node is used too often, by every count up to the most there is room for, or never.

use super::{Part, CODE};
use crate::layout::{record, tower, ADD, BLOCK, VAL};
use crate::trial::Trial;

pub const USES: Part = Part { name: "nodes used more than once", floor: 4_600, tries: all };

const NODES: usize = 512;
/// Leaves of the tables in which one node takes the place of another.
const LEAVES: usize = 16;

pub fn all(trial: &mut Trial) {
    trial.source = "uses".to_string();
    for uses in 0..=NODES {
        for (below, above) in [(0, 0), (1, 2), (200, 0), (0, 200)] {
            shared(trial, below, uses, above);
        }
    }
    for uses in 0..=2 * (NODES - 1) {
        for below in [0, 1, 200] {
            only_used(trial, below, uses);
        }
    }
    for twice in 0..2 * LEAVES - 2 {
        for never in 0..LEAVES {
            exchanged(trial, twice, never);
        }
    }
}

/// One node is used so many times, and each other but the last once: Blocks over a Val below it; Adds, each of it and of the Add
/// before; and Blocks above.
fn shared(trial: &mut Trial, below: usize, uses: usize, above: usize) {
    let mut table = tower(below + 1);
    let node = below;
    match uses {
        0 => table.push(record(VAL, 0, 0)),
        1 => table.push(record(BLOCK, node, 0)),
        _ => table.push(record(ADD, node, node)),
    }
    for _ in 2..uses {
        table.push(record(ADD, node, table.len() - 1));
    }
    for _ in 0..above {
        table.push(record(BLOCK, table.len() - 1, 0));
    }
    compile(trial, &table, (uses != 1).then_some(node));
}

/// One node is used so many times, and those after it never: each of them is an Add of it with itself, and the last a Block where
/// the count is odd.
fn only_used(trial: &mut Trial, below: usize, uses: usize) {
    let mut table = tower(below + 1);
    let node = below;
    table.extend((0..uses / 2).map(|_| record(ADD, node, node)));
    table.extend((0..uses % 2).map(|_| record(BLOCK, node, 0)));
    let wrong = if uses == 1 { None } else { Some(node) };
    compile(trial, &table, wrong.filter(|&node| node + 1 < table.len()));
}

/// As many operands as a table has, but one node's place is taken by another.
fn exchanged(trial: &mut Trial, twice: usize, never: usize) {
    let mut table = vec![record(VAL, 0, 0); LEAVES];
    let mut sum = 0;
    for leaf in 1..LEAVES {
        table.push(record(ADD, sum, leaf));
        sum = table.len() - 1;
    }
    let user = if never == 0 { LEAVES } else { LEAVES + never - 1 };
    if twice >= user || twice == never {
        return;
    }
    let field = if never == 0 { 2 } else { 4 };
    table[user][field..field + 2].copy_from_slice(&(twice as u16).to_le_bytes());
    compile(trial, &table, Some(twice.min(never)));
}

/// Where it is not too long, with the refusal 5 at this node, or none.
fn compile(trial: &mut Trial, table: &[[u8; 8]], wrong: Option<usize>) {
    if table.len() > NODES {
        return;
    }
    let compiled = trial.compile(table.as_flattened(), CODE);
    let place = (compiled.refusal == 5).then_some(compiled.place as usize);
    let refused = compiled.refusal != 0;
    trial.claim("refused at the lowest node used wrongly", place == wrong && refused == wrong.is_some());
}
