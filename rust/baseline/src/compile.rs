//! The compiler: it calls itself on the operands of a node.

use crate::code::{self, Instruction};
use crate::table::{self, Node};
use crate::Refusal;

/// Tests the table and the buffer, then writes; hands back the code length.
#[inline(always)]
pub fn compile(table: &[u8], code: &mut [u8]) -> Result<usize, Refusal> {
    let (records, length) = table::check(table)?;
    let (buffer, _) = code.as_chunks_mut::<8>();
    let Some(buffer) = buffer.get_mut(..length) else {
        return Err(Refusal::at(0, 6));
    };
    Ok(emit(records, records.len() - 1, buffer, 0))
}

/// Writes the code of a node from an address on; hands back the address
/// after it. A leaf is written in place, which saves half of the calls.
#[inline(always)]
fn emit(table: &[[u8; 8]], node: usize, code: &mut [[u8; 8]], at: usize) -> usize {
    let node = Node::read(&table[node]);
    match node.kind() {
        table::VAL => {
            code[at] = Instruction::bytes(code::PUSH, node.number());
            at + 1
        }
        table::THROW => {
            code[at] = Instruction::bytes(code::THROW, 0);
            at + 1
        }
        _ => branch(table, node, code, at),
    }
}

/// Writes a node with operands, which all stand below it: the node number
/// falls at each call. MARK and UNMARK wait for their targets.
fn branch(table: &[[u8; 8]], node: Node, code: &mut [[u8; 8]], at: usize) -> usize {
    match node.kind() {
        table::ADD => {
            let middle = emit(table, node.left(), code, at);
            let end = emit(table, node.right(), code, middle);
            code[end] = Instruction::bytes(code::ADD, 0);
            end + 1
        }
        table::SEQN => {
            let middle = emit(table, node.left(), code, at);
            code[middle] = Instruction::bytes(code::POP, 0);
            emit(table, node.right(), code, middle + 1)
        }
        table::CATCH => {
            let middle = emit(table, node.left(), code, at + 1);
            let end = emit(table, node.right(), code, middle + 1);
            code[at] = Instruction::bytes(code::MARK, middle as u32 + 1);
            code[middle] = Instruction::bytes(code::UNMARK, end as u32);
            end
        }
        kind => {
            let status = u32::from(kind != table::BLOCK);
            code[at] = Instruction::bytes(code::SET, status);
            let end = emit(table, node.left(), code, at + 1);
            code[end] = Instruction::bytes(code::RESET, 0);
            end + 1
        }
    }
}
