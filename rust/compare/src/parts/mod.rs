//! What is tried, a file each.

pub mod alignment;
pub mod beyond;
pub mod damage;
pub mod demand;
pub mod evaluation;
pub mod foreign;
pub mod lengths;
pub mod limit;
pub mod null;
pub mod recalled;
pub mod records;
pub mod rehearsal;
pub mod rounds;
pub mod sides;
pub mod small;
pub mod statuses;
pub mod uses;
pub mod vast;

use crate::trial::Trial;

/// A code buffer for every table, and the least stack buffer.
pub const CODE: usize = 8184;
pub const STACK: usize = 4096;
/// More than any buffer has to have, and little enough to lend often.
pub const AMPLE: usize = 16 * 1024;

/// A part of the comparison.
#[derive(Clone, Copy)]
pub struct Part {
    pub name: &'static str,
    /// The inputs that it tries at least: fewer mean that it has lost some of what it is for.
    pub floor: u64,
    pub tries: fn(&mut Trial),
}

/// Those whose inputs no seed decides.
pub const FIXED: [Part; 13] = [
    damage::BYTE_BY_BYTE,
    lengths::LENGTHS,
    beyond::BEYOND,
    vast::VAST,
    limit::LIMIT,
    uses::USES,
    records::RECORDS,
    statuses::STATUSES,
    null::NULL,
    alignment::ALIGNMENT,
    sides::FRONT,
    sides::BACK,
    sides::AMID,
];
