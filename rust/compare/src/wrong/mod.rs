//! Workers that are wrong on purpose, each made of the right one: a comparison that finds no fault with them is worth nothing.
//!
//! Each names the parts of the comparison that are meant for its fault, and every one of them has to find it by itself.

mod lent;
mod narrow;
mod rules;
mod stray;

use crate::parts::Part;
use crate::worker::{Buffer, Worker, LIBRARY};
use second::{Answer, Compiled};

const RIGHT: Worker = LIBRARY;

#[derive(Clone, Copy)]
pub struct Wrong {
    pub worker: Worker,
    pub found_by: &'static [Part],
}

/// All of them.
pub fn all() -> Vec<Wrong> {
    [&rules::WRONG[..], &narrow::WRONG, &lent::WRONG, &stray::WRONG].concat()
}

const fn compiler(
    name: &'static str,
    found_by: &'static [Part],
    compile: unsafe fn(Buffer, Buffer) -> Compiled,
) -> Wrong {
    Wrong { worker: Worker { name, compile, ..RIGHT }, found_by }
}

const fn runner(
    name: &'static str,
    found_by: &'static [Part],
    run: unsafe fn(u8, Buffer, Buffer, Buffer) -> Answer,
) -> Wrong {
    Wrong { worker: Worker { name, run, ..RIGHT }, found_by }
}
