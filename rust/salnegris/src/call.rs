//! The two calls. All that is unsafe stands here.
//!
//! Both functions ask for buffers as long as said, for pointers that are not null, and that a buffer which they write
//! overlaps no other. A slice has such a pointer and such a length, empty or not, and a mutable one overlaps nothing. That
//! the library takes and gives what `sys` says is held by its version: `build.rs` links no other one.

use crate::sys;

pub(crate) fn compile(table: &[u8], buffer: &mut [u8]) -> sys::Compiled {
    let (code, code_len) = (buffer.as_mut_ptr(), buffer.len());
    // SAFETY: two slices, of which one is mutable; see above.
    unsafe { sys::salnegris_compile(table.as_ptr(), table.len(), code, code_len) }
}

pub(crate) fn run(status: u8, code: &[u8], schedule: &[u8], stack: &mut [u8]) -> sys::Run {
    let (asks, asks_len) = (schedule.as_ptr(), schedule.len());
    let (items, items_len) = (stack.as_mut_ptr(), stack.len());
    // SAFETY: three slices, of which one is mutable; see above.
    unsafe { sys::salnegris_run(status, code.as_ptr(), code.len(), asks, asks_len, items, items_len) }
}
