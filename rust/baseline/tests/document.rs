//! The cases of document 01, and refusals worked out by hand from its rules.

use baseline::{compile, run, Answer, Compiled};

type Record = [u8; 8];

fn node(kind: u8, left: u16, right: u32) -> Record {
    let (l, r) = (left.to_le_bytes(), right.to_le_bytes());
    [kind, 0, l[0], l[1], r[0], r[1], r[2], r[3]]
}

fn val(number: i32) -> Record {
    node(1, 0, number as u32)
}

fn op(opcode: u8, operand: u32) -> Record {
    node(opcode, 0, operand)
}

/// A schedule with the given bits.
fn recalls(bits: &[usize]) -> Vec<u8> {
    let mut schedule = vec![0; 200];
    for bit in bits {
        schedule[bit / 8] |= 1 << (bit % 8);
    }
    schedule
}

fn tree_a() -> Vec<Record> {
    vec![val(5), val(7), node(2, 0, 0), node(3, 1, 2), val(6), node(5, 3, 4), node(3, 0, 5)]
}

/// Compiles accepted nodes; bytes past the code must stay.
fn code_of(nodes: &[Record]) -> Vec<u8> {
    let mut code = vec![0xa5; 8200];
    let compiled = compile(&nodes.concat(), &mut code);
    assert_eq!((compiled.refusal, compiled.place), (0, 0));
    let length = compiled.length as usize;
    assert!(code[8 * length..].iter().all(|&byte| byte == 0xa5));
    code.truncate(8 * length);
    code
}

/// Runs code that passes 7 to 12; the stack buffer is zero in front only.
fn run_of(status: u8, code: &[u8], schedule: &[u8]) -> Answer {
    let mut stack = vec![0xa5; 4113];
    let answer = run(status, code, schedule, &mut stack);
    assert!(stack[..4096].iter().all(|&byte| byte == 0));
    assert!(stack[4096..].iter().all(|&byte| byte == 0xa5));
    answer
}

fn number(number: i32, steps: u32, reached: u32) -> Answer {
    Answer { kind: 0, number, refusal: 0, place: 0, steps, reached }
}

fn throw(steps: u32, reached: u32) -> Answer {
    Answer { kind: 1, ..number(0, steps, reached) }
}

fn refused(refusal: u32, place: u32, steps: u32, reached: u32) -> Answer {
    Answer { kind: 2, refusal, place, ..number(0, steps, reached) }
}

#[test]
fn rehearsed_recipes() {
    let nine = code_of(&[val(9)]);
    assert_eq!(run_of(1, &nine, &[]), number(9, 1, 1)); // R1
    assert_eq!(run_of(1, &nine, &[1]), throw(1, 1)); // R2
    assert_eq!(run_of(0, &nine, &[1]), number(9, 1, 1)); // R3
    let a = code_of(&tree_a());
    assert_eq!(run_of(1, &a, &[]), number(11, 8, 6)); // R4
    assert_eq!(run_of(1, &a, &recalls(&[2])), number(11, 6, 5)); // R5
    assert_eq!(run_of(1, &a, &recalls(&[5])), throw(10, 6)); // R6
    let block = code_of(&[val(4), node(6, 0, 0)]);
    assert_eq!(run_of(1, &block, &recalls(&[1, 2])), number(4, 3, 3)); // R7
    assert_eq!(run_of(1, &block, &recalls(&[0])), throw(1, 1)); // R8
    let opened = code_of(&[val(4), node(6, 0, 0), node(7, 1, 0)]);
    assert_eq!(run_of(0, &opened, &recalls(&[1])), throw(3, 2)); // R9
    let wide = code_of(&[val(2147483647), val(1), node(3, 0, 1)]);
    assert_eq!(run_of(0, &wide, &[]), number(-2147483648, 3, 3)); // R10
    let catch = code_of(&[val(1), val(2), node(5, 0, 1)]);
    assert_eq!(run_of(1, &catch, &recalls(&[2])), number(2, 6, 4)); // R11
    refused_table(&[val(1), node(3, 0, 0)], 5, 0); // R12
}

#[test]
fn code_bytes() {
    let a = [op(1, 5), op(5, 6), op(1, 7), op(2, 0), op(3, 0), op(6, 7), op(1, 6), op(3, 0)];
    assert_eq!(code_of(&tree_a()), a.concat());
    let negative = code_of(&[val(-2)]);
    assert_eq!(negative, [1, 0, 0, 0, 0xfe, 0xff, 0xff, 0xff]);
    // Unblock (Seqn (Block (Val 1)) (Val 2)).
    let nodes = [val(2), val(1), node(6, 1, 0), node(4, 2, 0), node(7, 3, 0)];
    let code = [op(7, 1), op(7, 0), op(1, 1), op(8, 0), op(4, 0), op(1, 2), op(8, 0)];
    assert_eq!(code_of(&nodes), code.concat());
    assert_eq!(run_of(0, &code.concat(), &[]), number(2, 7, 7));
}

#[test]
fn run_only() {
    let mut blocks = vec![val(3)];
    blocks.extend((0..511).map(|below| node(6, below, 0)));
    let code = code_of(&blocks);
    assert_eq!(code.len(), 8 * 1023);
    assert_eq!(run_of(1, &code, &[]), number(3, 1023, 1023));
    blocks.push(node(6, 511, 0));
    refused_table(&blocks, 1, 0);

    let pushes = [op(1, 1); 513].concat();
    assert_eq!(run_of(0, &pushes[8..], &[]), refused(14, 512, 512, 512));
    assert_eq!(run_of(0, &pushes, &[]), refused(13, 512, 512, 512));
    assert_eq!(run_of(0, &op(4, 0), &[]), refused(14, 0, 0, 0));

    let marks = |count: u32| {
        let mut code: Vec<Record> = (1..=count).map(|next| op(5, next)).collect();
        code.push(op(2, 0));
        code.concat()
    };
    // Nine double the THROW nine times: 2^10 - 1 reached. Ten do one MARK
    // and then the same, with a handler left.
    assert_eq!(run_of(0, &marks(9), &[]), throw(1534, 1023));
    assert_eq!(run_of(0, &marks(10), &[]), refused(15, 0, 1535, 1024));
}

/// A refused table writes nothing.
fn refused_table(nodes: &[Record], refusal: u32, place: u32) {
    refused_bytes(&nodes.concat(), 8200, refusal, place);
}

fn refused_bytes(table: &[u8], room: usize, refusal: u32, place: u32) {
    let mut code = vec![0xa5; room];
    let expected = Compiled { length: 0, refusal, place };
    assert_eq!(compile(table, &mut code), expected);
    assert!(code.iter().all(|&byte| byte == 0xa5));
}

#[test]
fn refusals_1_to_4() {
    refused_bytes(&[], 0, 1, 0);
    refused_bytes(&[1, 0, 0, 0], 64, 1, 0);
    refused_bytes(&[0; 9], 64, 1, 0);
    refused_table(&[[0; 8]], 2, 0);
    refused_table(&[val(1), node(8, 0, 0)], 2, 1);
    refused_table(&[val(1), node(255, 9, 9)], 2, 1);
    refused_table(&[[1, 1, 0, 0, 5, 0, 0, 0]], 3, 0);
    refused_table(&[[1, 0, 0, 1, 5, 0, 0, 0]], 3, 0);
    refused_table(&[[2, 0, 0, 0, 0, 0, 0, 128]], 3, 0);
    refused_table(&[val(1), node(6, 0, 1)], 3, 1);
    refused_table(&[val(1), [7, 0, 0, 0, 0, 0, 0, 1]], 3, 1);
    for kind in 3..6 {
        refused_table(&[node(kind, 0, 0x1_0000)], 3, 0); // before 4
        refused_table(&[node(kind, 0, 0)], 4, 0);
        refused_table(&[val(1), node(kind, 1, 0)], 4, 1);
        refused_table(&[val(1), node(kind, 0, 1)], 4, 1);
        refused_table(&[val(1), node(kind, 0, 0xffff)], 4, 1);
    }
    refused_table(&[node(6, 0, 0)], 4, 0);
    refused_table(&[val(1), node(7, 0x200, 0)], 4, 1);
    // Node by node: 4 at node 0 comes before 2 at node 1.
    refused_table(&[node(6, 0, 0), node(0, 0, 0)], 4, 0);
}

#[test]
fn refusals_5_and_6() {
    refused_table(&[val(1), val(2)], 5, 0);
    refused_table(&[val(1), val(2), node(6, 0, 0)], 5, 1);
    refused_table(&[val(1), val(2), node(3, 1, 1)], 5, 0);
    refused_table(&[val(1), val(2), node(3, 0, 1), node(3, 1, 2)], 5, 1);
    // Node 0 is an operand 257 times, all others once.
    let mut nodes = vec![val(1), node(6, 0, 0)];
    nodes.extend((1..257).map(|below| node(3, below, 0)));
    refused_table(&nodes, 5, 0);

    refused_bytes(&[val(1), node(3, 0, 0)].concat(), 0, 5, 0); // before 6
    refused_bytes(&val(1), 7, 6, 0);
    let block = [val(1), node(6, 0, 0)].concat();
    refused_bytes(&block, 23, 6, 0);
    let mut exact = [0; 24];
    assert_eq!(compile(&block, &mut exact).length, 3);
}

/// Refusals 7 to 12 write nothing and report no totals.
fn refused_run(status: u8, code: &[u8], room: usize, refusal: u32, place: u32) {
    let mut stack = vec![0xa5; room];
    let answer = run(status, code, &[255; 9], &mut stack);
    assert_eq!(answer, refused(refusal, place, 0, 0));
    assert!(stack.iter().all(|&byte| byte == 0xa5));
}

#[test]
fn refusals_7_to_12() {
    refused_run(2, &[], 0, 7, 0);
    refused_run(255, &op(1, 9), 4096, 7, 0);
    refused_run(1, &[], 4095, 8, 0);
    refused_run(1, &op(1, 9), 4095, 8, 0);
    refused_run(1, &[], 4096, 9, 0);
    refused_run(1, &[0; 12], 4096, 9, 0);
    refused_run(1, &[0; 8192], 4096, 9, 0);
    refused_run(1, &[0; 8184], 4096, 10, 0);
    let code = |last: Record| [op(1, 9), last].concat();
    refused_run(0, &code(op(9, 0)), 4096, 10, 1);
    refused_run(0, &code([1, 1, 0, 0, 0, 0, 0, 0]), 4096, 11, 1);
    refused_run(0, &code([5, 0, 0, 1, 2, 0, 0, 0]), 4096, 11, 1);
    for bare in [2, 3, 4, 8] {
        refused_run(0, &code(op(bare, 1)), 4096, 11, 1);
        refused_run(0, &code(op(bare, 0x8000_0000)), 4096, 11, 1);
    }
    refused_run(0, &code(op(7, 2)), 4096, 11, 1);
    refused_run(0, &code(op(7, 0x100_0001)), 4096, 11, 1);
    for jump in [5, 6] {
        for target in [0, 1, 3, u32::MAX] {
            refused_run(0, &code(op(jump, target)), 4096, 12, 1);
        }
    }
    // Instruction by instruction: 12 at 0 comes before 10 at 1.
    refused_run(0, &[op(5, 0), op(0, 0)].concat(), 4096, 12, 0);
}

#[test]
fn refusals_13_to_15() {
    let ends = |code: &[Record]| run_of(0, &code.concat(), &[]);
    assert_eq!(ends(&[op(3, 0)]), refused(14, 0, 0, 0));
    assert_eq!(ends(&[op(1, 1), op(3, 0)]), refused(14, 1, 1, 1));
    assert_eq!(ends(&[op(7, 0), op(1, 1), op(3, 0)]), refused(14, 2, 2, 2));
    assert_eq!(ends(&[op(5, 1), op(4, 0)]), refused(14, 1, 1, 1));
    assert_eq!(ends(&[op(7, 1), op(1, 1), op(6, 3)]), refused(14, 2, 2, 2));
    assert_eq!(ends(&[op(5, 3), op(1, 1), op(8, 0)]), refused(14, 2, 2, 2));
    assert_eq!(ends(&[op(1, 1), op(1, 1), op(8, 0)]), refused(14, 2, 2, 2));
    // At the length: a handler, a status, nothing.
    assert_eq!(ends(&[op(5, 1)]), refused(14, 1, 1, 1));
    assert_eq!(ends(&[op(7, 0)]), refused(14, 1, 1, 1));
    assert_eq!(ends(&[op(1, 1), op(4, 0)]), refused(14, 2, 2, 2));
    // The 513th item may also be a handler or a status.
    for last in [op(5, 513), op(7, 0)] {
        let mut full = vec![op(1, 1); 512];
        full.push(last);
        assert_eq!(ends(&full), refused(13, 512, 512, 512));
    }
    // A recall comes before 14 and before 13.
    assert_eq!(run_of(1, &op(4, 0), &[1]), throw(1, 1));
    let pushes = [op(1, 1); 513].concat();
    assert_eq!(run_of(1, &pushes, &recalls(&[512])), throw(1025, 513));
}

#[test]
fn the_last_step_may_end() {
    // MARK 10, eight doubling MARKs and THROW take 1 + 766 + 1 steps and
    // reach 1 + 511; the tail at 10 takes the 767 steps that are left.
    let mut code = vec![op(5, 10)];
    code.extend((2..=9).map(|next| op(5, next)));
    code.push(op(2, 0));
    for _ in 0..382 {
        code.extend([op(1, 1), op(4, 0)]);
    }
    let tail = |last: &[Record]| [code.concat(), last.concat()].concat();
    let ends = tail(&[op(1, 1), op(4, 0), op(1, 7)]);
    assert_eq!(run_of(0, &ends, &[]), number(7, 1535, 1279));
    let stuck = tail(&[op(1, 7), op(1, 7), op(1, 7)]);
    assert_eq!(run_of(0, &stuck, &[]), refused(14, 777, 1535, 1279));
    let long = tail(&[op(1, 7), op(1, 7), op(1, 7), op(4, 0)]);
    assert_eq!(run_of(0, &long, &[]), refused(15, 0, 1535, 1279));
}

#[test]
fn schedules_and_targets() {
    let nine = code_of(&[val(9)]);
    assert_eq!(run_of(1, &nine, &[255; 10_000]), throw(1, 1));
    assert_eq!(run_of(1, &nine, &[254, 255]), number(9, 1, 1));
    // A handler at the length ends the run there.
    let code = [op(1, 8), op(5, 3), op(2, 0)].concat();
    assert_eq!(run_of(0, &code, &[]), number(8, 4, 3));
    // The handler runs in the status at its MARK: Catch (Unblock (Val 1))
    // (Val 2), blocked, is cut in the opening and goes on blocked.
    let nodes = [val(1), node(7, 0, 0), val(2), node(5, 1, 2)];
    let code = code_of(&nodes);
    assert_eq!(run_of(0, &code, &[255; 3]), number(2, 6, 4));
}
