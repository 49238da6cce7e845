//! Code that no compiler made: well-formed instructions in any order, pushes without end, marks on marks, and plain bytes.

use super::recalled::{room_for_stack, schedule, status};
use super::STACK;
use crate::chance::Chance;
use crate::trial::Trial;

pub const PUSH: u8 = 1;
pub const THROW: u8 = 2;
pub const ADD: u8 = 3;
pub const POP: u8 = 4;
pub const MARK: u8 = 5;
const UNMARK: u8 = 6;
const SET: u8 = 7;
const RESET: u8 = 8;

/// Runs of one code.
const RUNS: usize = 4;

pub fn round(trial: &mut Trial, chance: &mut Chance) {
    let code = match chance.below(10) {
        0 => plain_bytes(chance),
        1 => pushes(chance),
        2 => marks(chance),
        _ => any_order(chance),
    };
    for _ in 0..RUNS {
        let schedule = schedule(code.len() / 8, chance);
        trial.run(chance.byte() & 1, &code, &schedule, STACK);
    }
    let room = room_for_stack(chance);
    trial.run(status(chance), &code, &[], room);
}

/// Mostly short, so that a run comes to its end.
pub fn any_order(chance: &mut Chance) -> Vec<u8> {
    let most = chance.pick(&[4, 4, 8, 8, 16, 64]);
    let length = chance.between(1, most);
    let opcodes =
        [PUSH, PUSH, PUSH, PUSH, MARK, MARK, SET, SET, ADD, ADD, POP, UNMARK, UNMARK, RESET, RESET, THROW];
    code(length, |address| instruction(chance.pick(&opcodes), address, length, chance))
}

/// Around 512 items, and around 1,023 instructions.
fn pushes(chance: &mut Chance) -> Vec<u8> {
    let length = match chance.below(3) {
        0 => chance.between(505, 520),
        1 => chance.between(1015, 1025),
        _ => chance.between(1, 1023),
    };
    let other = chance.between(1, 400);
    code(length, |address| {
        let opcode = if chance.one_in(other) {
            chance.pick(&[POP, ADD, RESET, UNMARK, THROW])
        } else {
            chance.pick(&[PUSH, PUSH, PUSH, MARK, SET])
        };
        instruction(opcode, address, length, chance)
    })
}

/// Each MARK in a row doubles the steps that a throw after them takes, up to the step limit.
fn marks(chance: &mut Chance) -> Vec<u8> {
    let marks = chance.between(1, 12);
    let before = chance.between(0, 3);
    let length = marks + before + chance.between(1, 3);
    code(length, |address| {
        if address < before {
            record(chance.pick(&[PUSH, SET]), 1)
        } else if address < before + marks {
            let skipped = if chance.one_in(8) { chance.between(1, 2) } else { 0 };
            record(MARK, (address + 1 + skipped).min(length) as u32)
        } else {
            instruction(chance.pick(&[THROW, THROW, PUSH, POP]), address, length, chance)
        }
    })
}

fn plain_bytes(chance: &mut Chance) -> Vec<u8> {
    let bytes = match chance.below(3) {
        0 => chance.between(0, 8200),
        1 => 8 * chance.between(0, 4),
        _ => chance.between(0, 40),
    };
    let small = chance.one_in(2);
    chance.bytes(bytes).into_iter().map(|byte| if small { byte % 9 } else { byte }).collect()
}

fn code(length: usize, at: impl FnMut(usize) -> [u8; 8]) -> Vec<u8> {
    (0..length).flat_map(at).collect()
}

/// Well-formed, but for one in a thousand.
fn instruction(opcode: u8, address: usize, length: usize, chance: &mut Chance) -> [u8; 8] {
    let operand = match opcode {
        PUSH => chance.word() as u32,
        // mostly near
        MARK | UNMARK if chance.one_in(2) => (address + chance.between(1, 4)).min(length) as u32,
        MARK | UNMARK => chance.between(address + 1, length) as u32,
        SET => chance.below(2) as u32,
        _ => 0,
    };
    let mut record = record(opcode, operand);
    if chance.one_in(1000) {
        record[chance.below(8)] = chance.byte();
    }
    record
}

pub fn record(opcode: u8, operand: u32) -> [u8; 8] {
    let mut record = [0; 8];
    record[0] = opcode;
    record[4..].copy_from_slice(&operand.to_le_bytes());
    record
}
