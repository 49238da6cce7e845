//! Compiled code.

use crate::{call, sys, Ran, Reason, Refusal, Status, RECORD_BYTES, STACK_BYTES};

/// Code that [`compile`](crate::compile) has made, in the buffer that it was lent. Nothing else makes one, so a run of it
/// with a [`Status`] and a stack of the right size is not refused.
#[derive(Debug, Clone, Copy, PartialEq, Eq, Hash)]
#[must_use]
pub struct Code<'b> {
    bytes: &'b [u8],
}

impl<'b> Code<'b> {
    /// The front of the buffer, by the length that compiling answered. A length that the buffer has no room for, which the
    /// library is proved not to answer, is refusal 0, that has no name.
    pub(crate) fn at_the_front_of(buffer: &'b [u8], compiled: sys::Compiled) -> Result<Code<'b>, Refusal> {
        let bytes = compiled.length()?.checked_mul(RECORD_BYTES).and_then(|length| buffer.get(..length));
        bytes
            .map(|bytes| Code { bytes })
            .ok_or(Refusal { reason: Reason::Unknown(0), place: compiled.length })
    }

    /// The bytes of its instructions.
    #[must_use]
    pub fn bytes(self) -> &'b [u8] {
        self.bytes
    }

    /// How many instructions it has.
    #[must_use]
    pub fn instructions(self) -> usize {
        self.bytes.len() / RECORD_BYTES
    }

    /// Runs it from a starting status, which a byte of a recipe becomes by [`Status::try_from`].
    ///
    /// Bit k of the schedule (byte k / 8, least significant bit first) asks for a recall at the instruction reached as number
    /// k, counted from 0; past its end none is asked for. It may have any length.
    ///
    /// It ends in a number or a throw: that is proved, for every schedule, of code that was compiled. The stack is zero
    /// afterwards.
    ///
    /// A stack of another size is no call at all:
    ///
    /// ```compile_fail
    /// # let mut buffer = [0; salnegris::CODE_BYTES];
    /// # let code = salnegris::compile(&[1, 0, 0, 0, 9, 0, 0, 0], &mut buffer)?;
    /// let ran = code.run(salnegris::Status::Unblocked, &[], &mut [0; 4095]);
    /// # Ok::<(), salnegris::Refusal>(())
    /// ```
    pub fn run(self, status: Status, schedule: &[u8], stack: &mut [u8; STACK_BYTES]) -> Ran {
        call::run(status.into(), self.bytes, schedule, stack).ran()
    }
}

#[cfg(test)]
mod tests {
    use super::*;

    fn made(length: u32) -> Result<usize, Refusal> {
        let compiled = sys::Compiled { length, refusal: 0, place: 0 };
        Code::at_the_front_of(&[0; 16], compiled).map(Code::instructions)
    }

    #[test]
    fn a_length_without_room_is_a_value() {
        assert_eq!((made(1), made(2)), (Ok(1), Ok(2)));
        for length in [3, u32::MAX] {
            assert_eq!(made(length), Err(Refusal { reason: Reason::Unknown(0), place: length }));
        }
    }
}
