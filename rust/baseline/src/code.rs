//! The code: its instructions and the tests 9 to 12.

use crate::Refusal;

pub const PUSH: u8 = 1;
pub const THROW: u8 = 2;
pub const ADD: u8 = 3;
pub const POP: u8 = 4;
pub const MARK: u8 = 5;
pub const UNMARK: u8 = 6;
pub const SET: u8 = 7;
pub const RESET: u8 = 8;

/// One instruction: the opcode in byte 0, the operand in bytes 4 to 7.
#[derive(Clone, Copy)]
pub struct Instruction(u64);

impl Instruction {
    #[inline(always)]
    pub fn bytes(opcode: u8, operand: u32) -> [u8; 8] {
        (u64::from(opcode) | u64::from(operand) << 32).to_le_bytes()
    }

    #[inline(always)]
    pub fn read(record: &[u8; 8]) -> Self {
        Self(u64::from_le_bytes(*record))
    }

    #[inline(always)]
    pub fn opcode(self) -> u8 {
        self.0 as u8
    }

    #[inline(always)]
    pub fn operand(self) -> u32 {
        (self.0 >> 32) as u32
    }
}

const BARE: u64 = 0xffff_ffff_ffff_ff00;
const WIDE: u64 = 0x0000_0000_ffff_ff00;
const BIT: u64 = 0xffff_fffe_ffff_ff00;

/// By opcode, PUSH first: the bits that must be zero.
static ZERO: [u64; 8] = [WIDE, BARE, BARE, BARE, WIDE, WIDE, BIT, BARE];

/// By opcode: all bits where the operand is a target.
static TARGET: [usize; 8] = [0, 0, 0, 0, usize::MAX, usize::MAX, 0, 0];

/// Tests 9 to 12; hands back the instructions.
#[inline(always)]
pub fn check(code: &[u8], limit: usize) -> Result<&[[u8; 8]], Refusal> {
    let (records, rest) = code.as_chunks::<8>();
    if records.is_empty() || records.len() > limit || !rest.is_empty() {
        return Err(Refusal::at(0, 9));
    }
    for (place, record) in records.iter().enumerate() {
        let instruction = Instruction::read(record);
        let row = usize::from(instruction.opcode()).wrapping_sub(1);
        if row >= ZERO.len() {
            return Err(Refusal::at(place, 10));
        }
        if instruction.0 & ZERO[row] != 0 {
            return Err(Refusal::at(place, 11));
        }
        // A mask, not a branch: opcodes come in no order. Whatever is no
        // target counts as the next address; one too low wraps far ahead.
        let next = place + 1;
        let ahead = (instruction.operand() as usize).wrapping_sub(next) & TARGET[row];
        if ahead >= records.len() - place {
            return Err(Refusal::at(place, 12));
        }
    }
    Ok(records)
}
