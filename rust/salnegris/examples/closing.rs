//! A recipe with a closing part, tried with a recall at each of its instructions: before the closing part a recall sends the
//! folder back to the queue, and in it none bites.
//!
//!     make lib && cd rust && cargo run --example closing

use salnegris::{compile, End, Refusal, Status, CODE_BYTES, STACK_BYTES};

/// Seqn (Val 0) (Block (Add (Val 8) (Val 4))), operands first.
const TABLE: [u8; 48] = [
    1, 0, 0, 0, 0, 0, 0, 0, // node 0: Val 0
    1, 0, 0, 0, 8, 0, 0, 0, // node 1: Val 8
    1, 0, 0, 0, 4, 0, 0, 0, // node 2: Val 4
    3, 0, 1, 0, 2, 0, 0, 0, // node 3: Add, left node 1, right node 2
    6, 0, 3, 0, 0, 0, 0, 0, // node 4: Block of node 3
    4, 0, 0, 0, 4, 0, 0, 0, // node 5: Seqn, first node 0, then node 4
];

fn main() -> Result<(), Refusal> {
    let mut buffer = [0; CODE_BYTES];
    let mut stack = [0; STACK_BYTES];
    let code = compile(&TABLE, &mut buffer)?;

    let quiet = code.run(Status::Unblocked, &[], &mut stack);
    println!("no recall: {}", what_happens(quiet.end));
    for k in 0..code.instructions() {
        let mut schedule = [0; 128];
        schedule[k / 8] = 1 << (k % 8);
        let recalled = code.run(Status::Unblocked, &schedule, &mut stack);
        println!("recall at {k}: {}", what_happens(recalled.end));
    }
    Ok(())
}

/// What a worker does with the folder.
fn what_happens(end: End) -> String {
    match end {
        End::Number(lanes @ 0..) => format!("{lanes} lanes to base calling"),
        End::Number(lanes) => format!("held, {lanes} is no count of lanes"),
        End::Throw => "back to the queue".to_string(),
        End::Unknown(answer) => format!("held, {answer:?} is not known"),
    }
}
