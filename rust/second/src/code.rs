//! Instructions, the compiler to them, and their bytes both ways (document 01,
//! "The code", and tests 9 to 12; 001, section 8).

use crate::expression::{Expression, Status};
use crate::refusal::{Reason, Refusal};

/// Bytes of one instruction.
pub const RECORD: usize = 8;

/// Instructions of the largest code: 8,184 bytes.
const LARGEST: usize = 1_023;

/// Targets are absolute addresses, counted in instructions from 0.
#[derive(Debug, Clone, Copy, PartialEq, Eq)]
pub enum Instruction {
    Push(i32),
    Throw,
    Add,
    Pop,
    Mark(u32),
    Unmark(u32),
    Set(Status),
    Reset,
}

/// The sum of the last column of the table of kinds.
pub fn length(e: &Expression) -> u32 {
    match e {
        Expression::Val(_) | Expression::Throw => 1,
        Expression::Add(x, y) | Expression::Seqn(x, y) => length(x) + length(y) + 1,
        Expression::Catch(x, y) => length(x) + length(y) + 2,
        Expression::Block(x) | Expression::Unblock(x) => length(x) + 2,
    }
}

/// The code of an expression, targets counted from its first instruction.
pub fn compile(e: &Expression) -> Vec<Instruction> {
    let length = length(e);
    let mut writer = Writer { front: length, last_first: Vec::with_capacity(length as usize) };
    writer.expression(e);
    let mut code = writer.last_first;
    code.reverse();
    code
}

/// Writes code from its end to its start, as 001's `comp` puts code in front of
/// an accumulator: so both targets of a Catch are known before they are needed.
struct Writer {
    /// The address of the instruction written last, or the length.
    front: u32,
    last_first: Vec<Instruction>,
}

impl Writer {
    fn put(&mut self, instruction: Instruction) {
        self.front -= 1;
        self.last_first.push(instruction);
    }

    fn expression(&mut self, e: &Expression) {
        match e {
            Expression::Val(n) => self.put(Instruction::Push(*n)),
            Expression::Throw => self.put(Instruction::Throw),
            Expression::Add(x, y) => {
                self.put(Instruction::Add);
                self.expression(y);
                self.expression(x);
            }
            Expression::Seqn(x, y) => {
                self.expression(y);
                self.put(Instruction::Pop);
                self.expression(x);
            }
            Expression::Catch(x, y) => {
                let after = self.front;
                self.expression(y);
                let handler = self.front;
                self.put(Instruction::Unmark(after));
                self.expression(x);
                self.put(Instruction::Mark(handler));
            }
            Expression::Block(x) => self.under(Status::Blocked, x),
            Expression::Unblock(x) => self.under(Status::Unblocked, x),
        }
    }

    fn under(&mut self, status: Status, x: &Expression) {
        self.put(Instruction::Reset);
        self.expression(x);
        self.put(Instruction::Set(status));
    }
}

impl Instruction {
    /// Opcode, three zero bytes, operand.
    pub fn bytes(self) -> [u8; RECORD] {
        let absent = [0; 4];
        let (opcode, operand) = match self {
            Instruction::Push(n) => (1, n.to_le_bytes()),
            Instruction::Throw => (2, absent),
            Instruction::Add => (3, absent),
            Instruction::Pop => (4, absent),
            Instruction::Mark(target) => (5, target.to_le_bytes()),
            Instruction::Unmark(target) => (6, target.to_le_bytes()),
            Instruction::Set(status) => (7, [status.byte(), 0, 0, 0]),
            Instruction::Reset => (8, absent),
        };
        let [a, b, c, d] = operand;
        [opcode, 0, 0, 0, a, b, c, d]
    }

    /// Tests 10, 11 and 12 of one instruction, in this order.
    fn read(address: u32, length: u32, record: &[u8; RECORD]) -> Result<Instruction, Reason> {
        let instruction = Instruction::decode(record)?;
        match instruction {
            Instruction::Mark(target) | Instruction::Unmark(target)
                if target <= address || target > length =>
            {
                Err(Reason::Target)
            }
            _ => Ok(instruction),
        }
    }

    /// A pattern has a 0 where the bytes have to be zero, so a known opcode that
    /// fits no pattern has a wrong field.
    fn decode(record: &[u8; RECORD]) -> Result<Instruction, Reason> {
        let target = u32::from_le_bytes;
        match *record {
            [1, 0, 0, 0, a, b, c, d] => Ok(Instruction::Push(i32::from_le_bytes([a, b, c, d]))),
            [2, 0, 0, 0, 0, 0, 0, 0] => Ok(Instruction::Throw),
            [3, 0, 0, 0, 0, 0, 0, 0] => Ok(Instruction::Add),
            [4, 0, 0, 0, 0, 0, 0, 0] => Ok(Instruction::Pop),
            [5, 0, 0, 0, a, b, c, d] => Ok(Instruction::Mark(target([a, b, c, d]))),
            [6, 0, 0, 0, a, b, c, d] => Ok(Instruction::Unmark(target([a, b, c, d]))),
            [7, 0, 0, 0, 0, 0, 0, 0] => Ok(Instruction::Set(Status::Blocked)),
            [7, 0, 0, 0, 1, 0, 0, 0] => Ok(Instruction::Set(Status::Unblocked)),
            [8, 0, 0, 0, 0, 0, 0, 0] => Ok(Instruction::Reset),
            [1..=8, ..] => Err(Reason::Field),
            _ => Err(Reason::Opcode),
        }
    }
}

/// The instructions of code bytes, or the first refusal: 9, then each address
/// upward for 10, 11, 12.
pub fn read(bytes: &[u8]) -> Result<Vec<Instruction>, Refusal> {
    let (records, rest) = bytes.as_chunks::<RECORD>();
    if !(1..=LARGEST).contains(&records.len()) || !rest.is_empty() {
        return Err(Reason::CodeBytes.at(0));
    }
    let length = records.len() as u32;
    let mut code = Vec::with_capacity(records.len());
    for (address, record) in (0..).zip(records) {
        code.push(Instruction::read(address, length, record).map_err(|reason| reason.at(address))?);
    }
    Ok(code)
}
