//! The rehearsal program, by pipe.

use super::recalled::{nodes, recipe, schedule};
use crate::chance::Chance;
use crate::hex::hex;
use crate::layout;
use crate::piped;

/// The rehearsal of an input, as the program writes it, if it is not what the second program says.
pub fn differs(program: &str, input: &[u8]) -> Option<String> {
    let wanted = second::rehearse(input);
    let how = match piped::written(program, input) {
        Ok(line) if line == wanted => return None,
        Ok(line) => format!("wanted {wanted:?}, written {line:?}"),
        Err(error) => error.to_string(),
    };
    Some(format!("rehearses {}\n  {how}", hex(input)))
}

/// The input of a number, which can be made again.
pub fn numbered(seed: u64, number: u64) -> Vec<u8> {
    input(&mut Chance::of_round(seed, number))
}

/// A recipe as it should be, or with a wrong status, length, byte or end.
fn input(chance: &mut Chance) -> Vec<u8> {
    let nodes = nodes(chance);
    let mut table = layout::table(&recipe(nodes, chance), chance);
    let mut announced = table.len();
    let mut status = chance.byte() & 1;
    match chance.below(8) {
        0 => status = chance.byte(),
        1 => announced = announced + chance.between(0, 16) - 8,
        2 => {
            let k = chance.below(table.len());
            table[k] = chance.byte() % 10;
        }
        3 => table.truncate(chance.below(table.len())),
        _ => {}
    }
    let mut input = vec![status];
    input.extend((announced as u16).to_le_bytes());
    input.extend(table);
    input.extend(match chance.below(8) {
        0 => chance.bytes(9000),
        _ => schedule(2 * nodes, chance),
    });
    if chance.one_in(16) {
        input.truncate(chance.below(12));
    }
    input
}
