//! Tables and codes with wrong bytes: one by one, every value at every byte; and at random.

use super::recalled::{self, schedule};
use super::{Part, CODE, STACK};
use crate::chance::Chance;
use crate::layout::{self, Nodes};
use crate::recipes::Shape;
use crate::trial::Trial;
use second::expression::Expression::{self, *};

pub const BYTE_BY_BYTE: Part = Part { name: "byte by byte", floor: 108_000, tries: byte_by_byte };

/// Every value at every byte of the table and of the code of a recipe with each kind of node, and some values at every byte
/// of a table of 512 nodes.
pub fn byte_by_byte(trial: &mut Trial) {
    let recipe = every_kind();
    let nodes = Nodes::of(&recipe);
    let table = nodes.table(&nodes.in_order());
    trial.source = "byte by byte".to_string();
    let compiled = trial.compile(&table, CODE);
    let code = trial.code(compiled);
    each_byte(&table, 0..=255, |damaged| {
        trial.compile(damaged, CODE);
    });
    each_byte(&code, 0..=255, |damaged| {
        for (status, schedule) in [(0, &[][..]), (1, &[]), (1, &[RECALL_AT_UNMARK])] {
            trial.run(status, damaged, schedule, STACK);
        }
    });
    let chance = &mut Chance::new(512);
    let large = layout::table(&Shape::Mixed.recipe(512, chance), chance);
    each_byte(&large, [0, 1, 2, 255], |damaged| {
        trial.compile(damaged, CODE);
    });
}

/// Of the code below: SET, MARK, SET, PUSH, PUSH, ADD, RESET, UNMARK, and so on.
const RECALL_AT_UNMARK: u8 = 1 << 7;

/// Unblock (Catch (Block (Add (Val 5) (Val 7))) (Seqn (Val 6) Throw)).
pub fn every_kind() -> Expression {
    let add = Add(Box::new(Val(5)), Box::new(Val(7)));
    let seqn = Seqn(Box::new(Val(6)), Box::new(Throw));
    Unblock(Box::new(Catch(Box::new(Block(Box::new(add))), Box::new(seqn))))
}

fn each_byte(bytes: &[u8], values: impl IntoIterator<Item = u8> + Clone, mut with: impl FnMut(&[u8])) {
    let mut damaged = bytes.to_vec();
    for k in 0..bytes.len() {
        for value in values.clone() {
            damaged[k] = value;
            with(&damaged);
        }
        damaged[k] = bytes[k];
    }
}

/// A table damaged in a few places, compiled, and run where it is still accepted.
pub fn table_round(trial: &mut Trial, chance: &mut Chance) {
    let nodes = recalled::nodes(chance);
    let mut table = layout::table(&recalled::recipe(nodes, chance), chance);
    for _ in 0..chance.between(1, 3) {
        damage(&mut table, chance);
        let room = if chance.one_in(4) { chance.between(0, table.len()) } else { CODE };
        let compiled = trial.compile(&table, room);
        if compiled.refusal == 0 {
            let code = trial.code(compiled);
            trial.run(chance.byte() & 1, &code, &schedule(code.len() / 8, chance), STACK);
        }
    }
}

/// A code damaged in a few places, and run.
pub fn code_round(trial: &mut Trial, chance: &mut Chance) {
    let nodes = recalled::nodes(chance);
    let table = layout::table(&recalled::recipe(nodes, chance), chance);
    let compiled = trial.compile(&table, CODE);
    let mut code = trial.code(compiled);
    for _ in 0..chance.between(1, 3) {
        damage(&mut code, chance);
        trial.run(chance.byte() & 1, &code, &schedule(code.len() / 8, chance), STACK);
    }
}

/// One wrong byte, a byte that is nearly right, a record moved, doubled or lost, or a wrong length.
pub fn damage(bytes: &mut Vec<u8>, chance: &mut Chance) {
    let records = bytes.len() / 8;
    if records == 0 {
        return bytes.push(chance.byte());
    }
    let record = 8 * chance.below(records);
    let other = 8 * chance.below(records);
    match chance.below(8) {
        0 => bytes[record + chance.below(8)] = chance.byte(),
        1 => bytes[record + chance.below(8)] ^= 1 << chance.below(8),
        2 => bytes[record] = chance.byte() % 10,
        // an operand or a target near its own record
        3 | 4 => {
            let near = (record / 8 + chance.between(0, 3)).saturating_sub(1) as u16;
            let field = record + chance.pick(&[2, 4]);
            bytes[field..field + 2].copy_from_slice(&near.to_le_bytes());
        }
        5 => {
            for k in 0..8 {
                bytes.swap(record + k, other + k);
            }
        }
        6 => bytes.copy_within(record..record + 8, other),
        _ => match chance.below(3) {
            0 => bytes.truncate(bytes.len() - chance.between(1, 9).min(bytes.len())),
            1 => bytes.extend_from_slice(&[0; 8]),
            _ => drop(bytes.drain(record..record + 8)),
        },
    }
}
