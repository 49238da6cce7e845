//! The bindings against document 01: ends, refusals by name with their places, and the buffers; and answers of a library that
//! is not this one.

use salnegris::{
    compile, run, sys, Code, End, Place, Reason, Refusal, Status, CODE_BYTES, STACK_BYTES, TABLE_BYTES,
};
use std::thread;

const NINE: [u8; 8] = [1, 0, 0, 0, 9, 0, 0, 0];
/// What stands in a buffer before a call.
const FRESH: u8 = 0xa5;

fn refusal(reason: Reason, place: u32) -> Refusal {
    Refusal { reason, place }
}

fn refuses_table(table: &[u8], room: usize, wanted: Refusal) {
    let mut buffer = vec![FRESH; room];
    assert_eq!(compile(table, &mut buffer), Err(wanted));
    assert_eq!(buffer, vec![FRESH; room]);
}

/// A refusal in a run, with the steps taken and the instructions reached.
type Stopped = (Refusal, u32, u32);

fn refuses_run(status: u8, code: &[u8], room: usize, (wanted, steps, reached): Stopped) {
    let mut stack = vec![FRESH; room];
    let answer = run(status, code, &[], &mut stack);
    assert_eq!((answer.end, answer.steps, answer.reached), (Err(wanted), steps, reached));
    let untouched = wanted.reason < Reason::StackFull;
    let left = if untouched { vec![FRESH; room] } else { vec![0; room] };
    assert_eq!(stack, left);
}

/// Both totals are 0 before a run takes a step.
fn at_once(reason: Reason, place: u32) -> Stopped {
    (refusal(reason, place), 0, 0)
}

fn instruction(opcode: u8, operand: u8) -> [u8; 8] {
    [opcode, 0, 0, 0, operand, 0, 0, 0]
}

#[test]
fn the_code_is_the_front_of_the_buffer() {
    let mut buffer = [FRESH; 12];
    let code = compile(&NINE, &mut buffer).expect("it is accepted");
    assert_eq!((code.bytes(), code.instructions()), (&NINE[..], 1));
    assert_eq!(buffer, [1, 0, 0, 0, 9, 0, 0, 0, FRESH, FRESH, FRESH, FRESH]);
}

/// R1, R2, R3: each is one step, at one instruction.
const NINES: [(Status, &[u8], End); 3] = [
    (Status::Unblocked, &[], End::Number(9)),
    (Status::Unblocked, &[1], End::Throw),
    (Status::Blocked, &[1], End::Number(9)),
];

#[test]
fn numbers_throws_and_totals_of_any_code() {
    let mut stack = [FRESH; STACK_BYTES + 1];
    for (status, schedule, end) in NINES {
        let answer = run(status, &NINE, schedule, &mut stack);
        assert_eq!((answer.end, answer.steps, answer.reached), (Ok(end), 1, 1));
        assert!(stack[..STACK_BYTES].iter().all(|&byte| byte == 0) && stack[STACK_BYTES] == FRESH);
    }
}

#[test]
fn numbers_throws_and_totals_of_compiled_code() {
    let mut buffer = [FRESH; CODE_BYTES];
    let code = compile(&NINE, &mut buffer).expect("it is accepted");
    for (status, schedule, end) in NINES {
        let mut stack = [FRESH; STACK_BYTES];
        let ran = code.run(status, schedule, &mut stack);
        assert_eq!((ran.end, ran.steps, ran.reached), (end, 1, 1));
        assert_eq!(stack, [0; STACK_BYTES]);
    }
}

/// R11, Catch (Val 1) (Val 2) with a recall at 2.
#[test]
fn compiled_code_runs_as_its_bytes_do() {
    let table = [instruction(1, 1), instruction(1, 2), [5, 0, 0, 0, 1, 0, 0, 0]].concat();
    let mut buffer = [FRESH; CODE_BYTES];
    let code = compile(&table, &mut buffer).expect("it is accepted");
    let mut stack = [FRESH; STACK_BYTES];
    let ran = code.run(Status::Unblocked, &[0b100], &mut stack);
    assert_eq!((ran.end, ran.steps, ran.reached), (End::Number(2), 6, 4));
    let answer = run(Status::Unblocked, code.bytes(), &[0b100], &mut stack);
    assert_eq!((answer.end, answer.steps, answer.reached), (Ok(End::Number(2)), 6, 4));
}

#[test]
fn refusals_of_compiling() {
    refuses_table(&[], CODE_BYTES, refusal(Reason::TableSize, 0));
    refuses_table(&[0; TABLE_BYTES + 8], CODE_BYTES, refusal(Reason::TableSize, 0));
    refuses_table(&[NINE, [9; 8]].concat(), CODE_BYTES, refusal(Reason::Kind, 1));
    refuses_table(&[NINE, [6, 1, 0, 0, 0, 0, 0, 0]].concat(), CODE_BYTES, refusal(Reason::UnusedByte, 1));
    refuses_table(&[NINE, [6, 0, 1, 0, 0, 0, 0, 0]].concat(), CODE_BYTES, refusal(Reason::Operand, 1));
    refuses_table(&[NINE, [3, 0, 0, 0, 0, 0, 0, 0]].concat(), CODE_BYTES, refusal(Reason::Uses, 0));
    refuses_table(&NINE, 7, refusal(Reason::CodeBuffer, 0));
}

#[test]
fn refusals_before_a_run() {
    refuses_run(2, &NINE, STACK_BYTES, at_once(Reason::Status, 0));
    refuses_run(1, &NINE, STACK_BYTES - 1, at_once(Reason::StackBuffer, 0));
    refuses_run(1, &NINE[..7], STACK_BYTES, at_once(Reason::CodeSize, 0));
    refuses_run(1, &[NINE, [9; 8]].concat(), STACK_BYTES, at_once(Reason::Opcode, 1));
    refuses_run(1, &[NINE, instruction(7, 2)].concat(), STACK_BYTES, at_once(Reason::Field, 1));
    refuses_run(1, &[NINE, instruction(5, 1)].concat(), STACK_BYTES, at_once(Reason::Target, 1));
}

/// A status byte, judged alone and in a run.
#[test]
fn status_bytes() {
    assert_eq!(Status::try_from(0), Ok(Status::Blocked));
    assert_eq!(Status::try_from(1), Ok(Status::Unblocked));
    for byte in 2..=255 {
        assert_eq!(Status::try_from(byte), Err(refusal(Reason::Status, 0)));
        refuses_run(byte, &NINE, STACK_BYTES, at_once(Reason::Status, 0));
    }
}

#[test]
fn refusals_in_a_run() {
    refuses_run(1, &NINE.repeat(513), STACK_BYTES, (refusal(Reason::StackFull, 512), 512, 512));
    refuses_run(1, &instruction(4, 0), STACK_BYTES, at_once(Reason::NoRule, 0));
    // ten MARKs, each with the next address as target, then THROW: one MARK, then the steps of nine
    let marks: Vec<u8> = (1..=10).flat_map(|next| instruction(5, next)).chain(instruction(2, 0)).collect();
    refuses_run(1, &marks, STACK_BYTES, (refusal(Reason::Steps, 0), 1535, 1024));
}

#[test]
fn reasons_by_number_and_in_words() {
    let mut last = 0;
    for &reason in Reason::ALL {
        assert_eq!(Reason::numbered(reason.number()), reason);
        assert!(reason.number() > last);
        last = reason.number();
    }
    assert_eq!(Reason::numbered(0), Reason::Unknown(0));
    assert_eq!(Reason::numbered(last + 1), Reason::Unknown(last + 1));
    assert_eq!((Reason::Uses.number(), Reason::Uses.place()), (5, Place::Node));
    assert_eq!(
        refusal(Reason::Uses, 0).to_string(),
        "refused 5 at node 0: a node but the last is used never, or more than once"
    );
    assert_eq!(
        refusal(Reason::StackFull, 512).to_string(),
        "refused 13 at address 512: a push onto 512 items"
    );
    assert_eq!(refusal(Reason::Status, 0).to_string(), "refused 7: the status is not 0 or 1");
}

/// A refusal of a number that no library has yet, of compiling and of running.
#[test]
fn an_unknown_refusal_is_a_value() {
    let unknown = refusal(Reason::Unknown(1000), 3);
    assert_eq!(sys::Compiled { length: 0, refusal: 1000, place: 3 }.length(), Err(unknown));
    let answer = sys::Run { kind: 2, number: 0, refusal: 1000, place: 3, steps: 5, reached: 4 }.read();
    assert_eq!((answer.end, answer.steps, answer.reached), (Err(unknown), 5, 4));
    assert_eq!((unknown.reason.number(), unknown.reason.place()), (1000, Place::Unknown));
    assert_eq!(unknown.to_string(), "refused 1000 at 3: a refusal that is not known here");
}

/// A kind of end that no library has yet, and a refusal of compiled code, which is proved not to come.
#[test]
fn an_unknown_end_is_a_value() {
    let third = sys::Run { kind: 3, number: 9, refusal: 0, place: 0, steps: 5, reached: 4 };
    assert_eq!(third.read().end, Ok(End::Unknown(third)));
    assert_eq!((third.ran().end, third.ran().steps, third.ran().reached), (End::Unknown(third), 5, 4));
    let refused = sys::Run { kind: 2, number: 0, refusal: 14, place: 3, steps: 5, reached: 4 };
    assert_eq!(refused.read().end, Err(refusal(Reason::NoRule, 3)));
    assert_eq!(refused.ran().end, End::Unknown(refused));
}

/// 511 Blocks over a Val, in threads of the call stack that the documentation asks for.
#[test]
fn the_deepest_table_in_small_threads() {
    let mut table = NINE.to_vec();
    for below in 0..511u16 {
        let [low, high] = below.to_le_bytes();
        table.extend([6, 0, low, high, 0, 0, 0, 0]);
    }
    thread::scope(|scope| {
        for _ in 0..4 {
            let deepest = || {
                let mut buffer = [0; CODE_BYTES];
                compile(&table, &mut buffer).map(Code::instructions)
            };
            let small = thread::Builder::new().stack_size(128 * 1024);
            let ended = small.spawn_scoped(scope, deepest).expect("a thread starts").join();
            assert_eq!(ended.expect("a thread ends"), Ok(1023));
        }
    });
}
