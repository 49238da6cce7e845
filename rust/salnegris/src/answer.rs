//! Statuses, ends and the answer of a run.

use crate::{sys, Reason, Refusal};

/// The starting status of a run.
#[derive(Debug, Clone, Copy, PartialEq, Eq, Hash)]
pub enum Status {
    /// Recalls lapse.
    Blocked,
    /// A recall cuts before any instruction.
    Unblocked,
}

impl From<Status> for u8 {
    fn from(status: Status) -> u8 {
        match status {
            Status::Blocked => 0,
            Status::Unblocked => 1,
        }
    }
}

/// The status of a byte that came with a recipe. One that is neither 0 nor 1 is refused by 7, as a run refuses it.
impl TryFrom<u8> for Status {
    type Error = Refusal;

    fn try_from(byte: u8) -> Result<Status, Refusal> {
        match byte {
            0 => Ok(Status::Blocked),
            1 => Ok(Status::Unblocked),
            _ => Err(Refusal { reason: Reason::Status, place: 0 }),
        }
    }
}

/// What a recipe ends in.
#[derive(Debug, Clone, Copy, PartialEq, Eq, Hash)]
pub enum End {
    /// So many lanes go on to base calling. A sum wraps at 2^31, so it may be negative, and no count of lanes.
    Number(i32),
    /// The folder returns to the queue.
    Throw,
    /// An answer whose meaning is not known here, with its fields as they came: a kind of end that a newer library may
    /// have or, of compiled code, a refusal. This library is proved to give neither. A folder that ends so is for a person
    /// to look at: neither base calling nor the queue is right.
    Unknown(sys::Run),
}

/// What a run of any code answers.
#[derive(Debug, Clone, Copy, PartialEq, Eq, Hash)]
#[must_use]
#[non_exhaustive]
pub struct Answer {
    /// The end, or the refusal, one of 7 to 15.
    pub end: Result<End, Refusal>,
    /// Steps taken; up to a refusal 13 to 15 too, and 0 with the others.
    pub steps: u32,
    /// Instructions reached, carried out or cut; up to a refusal 13 to 15 too, and 0 with the others.
    pub reached: u32,
}

/// What a run of compiled code answers: it is not refused.
#[derive(Debug, Clone, Copy, PartialEq, Eq, Hash)]
#[must_use]
#[non_exhaustive]
pub struct Ran {
    /// The end.
    pub end: End,
    /// Steps taken.
    pub steps: u32,
    /// Instructions reached, carried out or cut.
    pub reached: u32,
}
