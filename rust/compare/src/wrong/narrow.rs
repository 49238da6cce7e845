//! Workers that keep a number in fewer bits than it has.

// SAFETY, of every block here: the buffers are those of the call, as `Worker` asks, or shorter.

use super::{compiler, runner, Wrong, RIGHT};
use crate::parts::beyond::BEYOND;
use crate::parts::statuses::STATUSES;
use crate::parts::uses::USES;
use crate::parts::vast::VAST;
use crate::worker::Buffer;
use second::Compiled;

pub const WRONG: [Wrong; 13] = [
    compiler("counts uses in 8 bits", &[USES], |table, code| unsafe { few_uses(table, code) }),
    compiler("takes the table's length in 16 bits", &[BEYOND], |table, code| unsafe {
        (RIGHT.compile)(short(table), code)
    }),
    compiler("takes the code buffer's length in 16 bits", &[BEYOND], |table, code| unsafe {
        (RIGHT.compile)(table, short(code))
    }),
    runner("takes the code's length in 16 bits", &[BEYOND], |status, code, schedule, stack| unsafe {
        (RIGHT.run)(status, short(code), schedule, stack)
    }),
    runner("takes the schedule's length in 16 bits", &[BEYOND], |status, code, schedule, stack| unsafe {
        (RIGHT.run)(status, code, short(schedule), stack)
    }),
    runner("takes the stack buffer's length in 16 bits", &[BEYOND], |status, code, schedule, stack| unsafe {
        (RIGHT.run)(status, code, schedule, short(stack))
    }),
    compiler("takes the table's length in 32 bits", &[VAST], |table, code| unsafe {
        (RIGHT.compile)(shorter(table), code)
    }),
    compiler("takes the code buffer's length in 32 bits", &[VAST], |table, code| unsafe {
        (RIGHT.compile)(table, shorter(code))
    }),
    runner("takes the code's length in 32 bits", &[VAST], |status, code, schedule, stack| unsafe {
        (RIGHT.run)(status, shorter(code), schedule, stack)
    }),
    runner("takes the schedule's length in 32 bits", &[VAST], |status, code, schedule, stack| unsafe {
        (RIGHT.run)(status, code, shorter(schedule), stack)
    }),
    runner("takes the stack buffer's length in 32 bits", &[VAST], |status, code, schedule, stack| unsafe {
        (RIGHT.run)(status, code, schedule, shorter(stack))
    }),
    runner("takes the status in 2 bits", &[STATUSES], |status, code, schedule, stack| unsafe {
        (RIGHT.run)(status & 3, code, schedule, stack)
    }),
    runner("takes the status for a signed byte", &[STATUSES], |status, code, schedule, stack| unsafe {
        (RIGHT.run)(if status as i8 <= 1 { status & 1 } else { status }, code, schedule, stack)
    }),
];

/// The front that is left of a buffer whose length is kept in 16 bits, or in 32.
pub fn short(buffer: Buffer) -> Buffer {
    Buffer { length: usize::from(buffer.length as u16), ..buffer }
}

fn shorter(buffer: Buffer) -> Buffer {
    Buffer { length: buffer.length as u32 as usize, ..buffer }
}

/// Refusal 5 by counts of 8 bits; where they show no fault, the table is taken for one whose code has no instruction.
///
/// # Safety
///
/// As `Worker` asks.
pub unsafe fn few_uses(table: Buffer, code: Buffer) -> Compiled {
    let compiled = unsafe { (RIGHT.compile)(table, code) };
    if compiled.refusal != 5 {
        return compiled;
    }
    let records = unsafe { table.bytes() }.chunks_exact(8);
    let mut uses = vec![0u8; records.len()];
    for record in records {
        let fields: &[usize] = match record[0] {
            3..=5 => &[2, 4],
            6 | 7 => &[2],
            _ => &[],
        };
        for field in fields {
            let operand = u16::from_le_bytes([record[*field], record[field + 1]]);
            uses[usize::from(operand)] = uses[usize::from(operand)].wrapping_add(1);
        }
    }
    uses.pop();
    match uses.iter().position(|&uses| uses != 1) {
        Some(node) => Compiled { length: 0, refusal: 5, place: node as u32 },
        None => Compiled { length: 0, refusal: 0, place: 0 },
    }
}
