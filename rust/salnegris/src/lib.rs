//! Recipes of run folders, checked, compiled and run: safe bindings over the proved library.
//!
//! [`compile`] turns a recipe table into [`Code`], and [`Code::run`] runs it under a schedule of recalls. Compiling takes any
//! bytes of any length: nothing has to be checked first, every call ends, and what is wrong with a table is said by a
//! [`Refusal`]. Neither allocates or keeps anything between calls, so any number of threads may call them.
//!
//! ```
//! use salnegris::{compile, End, Status, CODE_BYTES, STACK_BYTES};
//!
//! // Catch (Val 12) (Val 0): twelve lanes or, if a recall strikes, none
//! let table = [
//!     1, 0, 0, 0, 12, 0, 0, 0, // node 0: Val 12
//!     1, 0, 0, 0, 0, 0, 0, 0, //  node 1: Val 0
//!     5, 0, 0, 0, 1, 0, 0, 0, //  node 2: Catch, left node 0, right node 1
//! ];
//! let mut buffer = [0; CODE_BYTES];
//! let mut stack = [0; STACK_BYTES];
//! let code = compile(&table, &mut buffer)?;
//!
//! let quiet = code.run(Status::Unblocked, &[], &mut stack);
//! assert_eq!(quiet.end, End::Number(12));
//!
//! // bit 1: a recall at the instruction reached as number 1
//! let recalled = code.run(Status::Unblocked, &[0b10], &mut stack);
//! assert_eq!(recalled.end, End::Number(0));
//! assert_eq!((recalled.steps, recalled.reached), (4, 3));
//! # Ok::<(), salnegris::Refusal>(())
//! ```
//!
//! Compiled code is not refused: from either [`Status`] it ends in a number or a throw, for a table of n nodes within 3n - 1
//! steps, under every schedule. That is proved of the library. A library that broke it would be told by [`End::Unknown`], as
//! a refusal that these bindings don't know is by [`Reason::Unknown`]: nothing here panics on what the library answers.
//!
//! [`run`] takes code from elsewhere too, a status byte and a stack of any length, and may refuse them.
//!
//! Compiling the deepest table takes about 34 KiB of call stack (on x86-64 64 bytes for each level), which a thread of the
//! standard library has unless it asks for less. A run takes less than 1 KiB.

#![no_std]
#![warn(missing_docs, clippy::undocumented_unsafe_blocks)]
#![deny(unsafe_code)]

mod answer;
#[allow(unsafe_code)]
mod call;
mod code;
mod refusal;
pub mod sys;

pub use answer::{Answer, End, Ran, Status};
pub use code::Code;
pub use refusal::{Place, Reason, Refusal};

/// The bytes of a record: a node of a table, an instruction of a code.
pub const RECORD_BYTES: usize = 8;
/// The bytes of the longest table: 512 nodes.
pub const TABLE_BYTES: usize = 4096;
/// A code buffer that is large enough for every table: 1,023 instructions.
pub const CODE_BYTES: usize = 8184;
/// The stack buffer that a run asks for.
pub const STACK_BYTES: usize = 4096;

/// Checks a table and compiles it into the front of a buffer; the answer is the code, ready to be [run](Code::run).
///
/// Later bytes of the buffer stay as they were. Refused, all of it does.
///
/// # Errors
///
/// The refusals 1 to 6, from [`Reason::TableSize`] to [`Reason::CodeBuffer`].
pub fn compile<'b>(table: &[u8], buffer: &'b mut [u8]) -> Result<Code<'b>, Refusal> {
    let compiled = call::compile(table, buffer);
    Code::at_the_front_of(buffer, compiled)
}

/// Runs any bytes as code, from a starting status: a [`Status`], or a byte that came with a recipe. The schedule is that of
/// [`Code::run`].
///
/// Refused by 7 to 12, the stack buffer stays as it was. Otherwise its first [`STACK_BYTES`] are zero afterwards, and later
/// ones stay as they were.
pub fn run(status: impl Into<u8>, code: &[u8], schedule: &[u8], stack: &mut [u8]) -> Answer {
    call::run(status.into(), code, schedule, stack).read()
}
