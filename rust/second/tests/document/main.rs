//! Document 01's own cases, and further ones worked out from it by hand.

mod agreement;
mod answers;
mod any_input;
mod code_orders;
mod code_refusals;
mod compiling;
mod dice;
mod lent;
mod permitted_ends;
mod recipes;
mod rehearsal_lines;
mod run_only;
mod run_orders;
mod steps;
mod table_orders;
mod table_refusals;
mod trees;
