//! The proved library and the baseline beside the second program, on the same inputs.
//!
//! Inputs are made by `chance`, as `recipes` laid out as tables (`layout`); the `parts` try them, each a class of inputs. Buffers
//! are `lent` at some `places`, or `vast` ones. A `trial` calls each `worker` beside the second program and keeps a `tally`;
//! programs are `piped`. Workers that are `wrong` on purpose have to be found out. The benchmark runs recipes that are `caught`.

pub mod caught;
pub mod chance;
pub mod hex;
pub mod layout;
pub mod lent;
pub mod parts;
pub mod piped;
pub mod places;
pub mod recipes;
mod system;
pub mod tally;
pub mod trial;
pub mod vast;
pub mod worker;
pub mod wrong;
