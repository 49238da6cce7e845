//! The C interface as it is (`include/salnegris.h`): all fields of an answer as numbers, 0 where they don't apply.

use crate::{Answer, End, Ran, Reason, Refusal};

/// What compiling answers.
#[repr(C)]
#[derive(Debug, Clone, Copy, PartialEq, Eq, Hash)]
#[must_use]
pub struct Compiled {
    /// Of the code, in instructions.
    pub length: u32,
    /// 0, or 1 to 6.
    pub refusal: u32,
    /// Of the refusal.
    pub place: u32,
}

/// What running answers.
#[repr(C)]
#[derive(Debug, Clone, Copy, PartialEq, Eq, Hash)]
#[must_use]
pub struct Run {
    /// 0 a number, 1 a throw, 2 refused.
    pub kind: u32,
    /// The lanes, if it is a number.
    pub number: i32,
    /// 0, or 7 to 15.
    pub refusal: u32,
    /// Of the refusal.
    pub place: u32,
    /// Steps taken.
    pub steps: u32,
    /// Instructions carried out or cut.
    pub reached: u32,
}

extern "C" {
    /// Checks a table and compiles it.
    ///
    /// # Safety
    ///
    /// Both buffers are as long as said, no pointer is null, and the code buffer does not overlap the table.
    pub fn salnegris_compile(table: *const u8, table_len: usize, code: *mut u8, code_len: usize) -> Compiled;

    /// Runs code under a schedule of recalls.
    ///
    /// # Safety
    ///
    /// The three buffers are as long as said, no pointer is null but that of an empty schedule, and the stack overlaps
    /// neither of the others.
    pub fn salnegris_run(
        status: u8,
        code: *const u8,
        code_len: usize,
        schedule: *const u8,
        schedule_len: usize,
        stack: *mut u8,
        stack_len: usize,
    ) -> Run;
}

impl Compiled {
    /// The length of the code in instructions, or why there is none.
    ///
    /// # Errors
    ///
    /// The refusal that the fields give.
    pub fn length(self) -> Result<usize, Refusal> {
        match self.refusal {
            0 => Ok(self.length as usize),
            _ => Err(refusal(self.refusal, self.place)),
        }
    }
}

impl Run {
    /// The answer that the fields give, of any code.
    pub fn read(self) -> Answer {
        let end = if self.kind == REFUSED { Err(refusal(self.refusal, self.place)) } else { Ok(self.end()) };
        Answer { end, steps: self.steps, reached: self.reached }
    }

    /// The answer that the fields give, of compiled code. It is proved to be no refusal: one is an end that is not known.
    pub fn ran(self) -> Ran {
        Ran { end: self.end(), steps: self.steps, reached: self.reached }
    }

    fn end(self) -> End {
        match self.kind {
            NUMBER => End::Number(self.number),
            THROW => End::Throw,
            _ => End::Unknown(self),
        }
    }
}

const NUMBER: u32 = 0;
const THROW: u32 = 1;
const REFUSED: u32 = 2;

fn refusal(number: u32, place: u32) -> Refusal {
    Refusal { reason: Reason::numbered(number), place }
}
