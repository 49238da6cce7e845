//! Whole tables of random records: any bytes, and records that are nearly right, so that a table has several faults and the first
//! test that refuses is one among many.

use super::recalled::{nodes, schedule};
use super::{Part, CODE, STACK};
use crate::chance::Chance;
use crate::trial::Trial;

pub const RECORDS: Part = Part { name: "tables of random records", floor: 16_000, tries: all };

const ROUNDS: u64 = 3_000;
/// Tables of one round.
const TABLES: usize = 4;

pub fn all(trial: &mut Trial) {
    for number in 0..ROUNDS {
        trial.source = format!("tables of random records {number}");
        round(trial, &mut Chance::new(number));
    }
}

pub fn round(trial: &mut Trial, chance: &mut Chance) {
    for _ in 0..TABLES {
        let records = nodes(chance);
        let table = match chance.below(4) {
            0 => chance.bytes(8 * records),
            1 => chance.bytes(8 * records).into_iter().map(|byte| byte % 8).collect(),
            _ => nearly_right(records, chance),
        };
        let compiled = trial.compile(&table, CODE);
        if compiled.refusal == 0 {
            let code = trial.code(compiled);
            trial.run(chance.byte() & 1, &code, &schedule(code.len() / 8, chance), STACK);
        }
    }
}

/// Every record a node, but for one fault in so many.
pub fn nearly_right(records: usize, chance: &mut Chance) -> Vec<u8> {
    let faults = chance.pick(&[4, 32, 256, 4096]);
    let mut unused = Vec::new();
    let mut table = Vec::new();
    for number in 0..records {
        let mut record = node(&mut unused, records - number, chance);
        if chance.one_in(faults) {
            fault(&mut record, number, chance);
        }
        table.extend(record);
        unused.push(number);
    }
    table
}

/// A node over those that are not used yet, so that the nodes left, this one among them, can still use them all.
fn node(unused: &mut Vec<usize>, left: usize, chance: &mut Chance) -> [u8; 8] {
    let waiting = unused.len();
    let mut kinds = Vec::new();
    if waiting < left {
        kinds.extend([1, 1, 2]);
    }
    if (1..=left).contains(&waiting) {
        kinds.extend([6, 7]);
    }
    if waiting >= 2 {
        kinds.extend([3, 4, 5]);
    }
    let mut record = [0; 8];
    record[0] = chance.pick(&kinds);
    let operands = match record[0] {
        1 | 2 => 0,
        6 | 7 => 1,
        _ => 2,
    };
    for field in [2, 4].into_iter().take(operands) {
        let operand = unused.swap_remove(chance.below(unused.len()));
        record[field..field + 2].copy_from_slice(&(operand as u16).to_le_bytes());
    }
    if record[0] == 1 {
        record[4..].copy_from_slice(&(chance.word() as u32).to_le_bytes());
    }
    record
}

/// A wrong kind, a byte that has to be zero, or an operand that is used elsewhere or not below.
fn fault(record: &mut [u8; 8], number: usize, chance: &mut Chance) {
    match chance.below(4) {
        0 => record[0] = chance.pick(&[0, 8, 9, 128, 255]),
        1 => record[chance.pick(&[1, 2, 3, 4, 5, 6, 7])] = chance.byte(),
        _ => {
            let field = chance.pick(&[2, 4]);
            let operand = chance.between(0, number + 1) as u16;
            record[field..field + 2].copy_from_slice(&operand.to_le_bytes());
        }
    }
}
