//! Where the buffers of one call lie.

use crate::chance::Chance;
use crate::lent::Place;

#[derive(Clone, Copy, Debug)]
pub struct Places {
    pub table: Place,
    /// The code buffer of a compilation, or the code of a run.
    pub code: Place,
    pub schedule: Place,
    pub stack: Place,
}

/// A buffer begins at any of these bytes past a multiple of 8.
pub const OFFSETS: usize = 8;

impl Places {
    pub const fn all(place: Place) -> Places {
        Places { table: place, code: place, schedule: place, stack: place }
    }

    /// Each buffer for itself, in an order that no row of inputs has; mostly at a page, where a read is noticed too.
    pub fn by_turns(input: u64) -> Places {
        let chance = &mut Chance::new(input);
        let mut place = || match chance.below(8) {
            0..3 => Place::Front,
            3..6 => Place::Back,
            _ => Place::Amid(chance.below(OFFSETS)),
        };
        Places { table: place(), code: place(), schedule: place(), stack: place() }
    }
}
