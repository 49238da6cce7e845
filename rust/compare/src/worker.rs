//! What is compared with the second program: a compiler and a runner over lent bytes, which they are handed as the C interface
//! takes them.

use second::{Answer, Compiled};
use std::slice;

/// Bytes lent to a worker: where they begin, and how many they are. Bytes that a worker may only read come in the same form, so
/// that a wrong one can write them, and no bytes may begin nowhere.
#[derive(Clone, Copy)]
pub struct Buffer {
    pub start: *mut u8,
    pub length: usize,
}

/// The functions of a worker ask that each buffer is as long as it says, that it begins somewhere unless it is empty, and that
/// one which is written overlaps no other. Those of a wrong worker may ask for more (`wrong`).
#[derive(Clone, Copy)]
pub struct Worker {
    pub name: &'static str,
    pub compile: unsafe fn(table: Buffer, code: Buffer) -> Compiled,
    pub run: unsafe fn(status: u8, code: Buffer, schedule: Buffer, stack: Buffer) -> Answer,
}

impl Buffer {
    /// For a worker that only reads it.
    pub fn to_read(bytes: &[u8]) -> Buffer {
        Buffer { start: bytes.as_ptr().cast_mut(), length: bytes.len() }
    }

    /// # Safety
    ///
    /// The buffer is as long as it says, and nobody writes it while these are read.
    pub unsafe fn bytes<'a>(self) -> &'a [u8] {
        match self.length {
            0 => &[],
            // SAFETY: the caller's.
            _ => unsafe { slice::from_raw_parts(self.start, self.length) },
        }
    }

    /// # Safety
    ///
    /// The buffer is as long as it says, may be written, and nobody else reads or writes it meanwhile.
    pub unsafe fn bytes_mut<'a>(self) -> &'a mut [u8] {
        match self.length {
            0 => &mut [],
            // SAFETY: the caller's.
            _ => unsafe { slice::from_raw_parts_mut(self.start, self.length) },
        }
    }
}

/// The proved library, by its C interface, so that no field is lost on the way.
pub const LIBRARY: Worker = Worker {
    name: "library",
    compile: |table, code| {
        // SAFETY: the caller's, as `Worker` says.
        let fields =
            unsafe { salnegris::sys::salnegris_compile(table.start, table.length, code.start, code.length) };
        Compiled { length: fields.length, refusal: fields.refusal, place: fields.place }
    },
    run: |status, code, schedule, stack| {
        // SAFETY: the caller's, as `Worker` says.
        let fields = unsafe {
            salnegris::sys::salnegris_run(
                status,
                code.start,
                code.length,
                schedule.start,
                schedule.length,
                stack.start,
                stack.length,
            )
        };
        Answer {
            kind: fields.kind,
            number: fields.number,
            refusal: fields.refusal,
            place: fields.place,
            steps: fields.steps,
            reached: fields.reached,
        }
    },
};

/// The plain worker that the benchmark measures against.
pub const BASELINE: Worker = Worker {
    name: "baseline",
    compile: |table, code| {
        // SAFETY: the caller's, as `Worker` says.
        let (table, code) = unsafe { (table.bytes(), code.bytes_mut()) };
        let baseline::Compiled { length, refusal, place } = baseline::compile(table, code);
        Compiled { length, refusal, place }
    },
    run: |status, code, schedule, stack| {
        // SAFETY: the caller's, as `Worker` says.
        let (code, schedule, stack) = unsafe { (code.bytes(), schedule.bytes(), stack.bytes_mut()) };
        let baseline::Answer { kind, number, refusal, place, steps, reached } =
            baseline::run(status, code, schedule, stack);
        Answer { kind, number, refusal, place, steps, reached }
    },
};
