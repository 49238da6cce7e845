//! Refusals 1 to 6, each with its place, and nothing written.

use crate::answers::{length, not_compiled};
use crate::lent::compile_into;
use crate::recipes::TREE_A;

const VAL_0: [u8; 8] = [1, 0, 0, 0, 0, 0, 0, 0];

/// Val 0 at node 0, the record at node 1.
fn refusal_of_second(record: [u8; 8]) -> (u32, u32) {
    let (compiled, _) = compile_into(8_184, &[VAL_0, record].concat());
    assert_eq!(compiled.length, 0);
    (compiled.refusal, compiled.place)
}

#[test]
fn refusal_1_table_bytes() {
    for bytes in [0, 1, 7, 9, 4_095, 4_097, 4_104, 65_536] {
        let table: Vec<u8> = VAL_0.into_iter().cycle().take(bytes).collect();
        assert_eq!(compile_into(8_184, &table).0, not_compiled(1, 0));
    }
}

#[test]
fn refusal_2_kind() {
    for kind in [0, 8, 9, 128, 255] {
        assert_eq!(refusal_of_second([kind, 0, 0, 0, 0, 0, 0, 0]), (2, 1));
        assert_eq!(compile_into(8_184, &[kind, 0, 0, 0, 0, 0, 0, 0]).0, not_compiled(2, 0));
    }
}

#[test]
fn refusal_3_unused_bytes() {
    let unused: [(u8, &[usize]); 7] = [
        (1, &[1, 2, 3]),
        (2, &[1, 2, 3, 4, 5, 6, 7]),
        (3, &[1, 6, 7]),
        (4, &[1, 6, 7]),
        (5, &[1, 6, 7]),
        (6, &[1, 4, 5, 6, 7]),
        (7, &[1, 4, 5, 6, 7]),
    ];
    for (kind, bytes) in unused {
        for &byte in bytes {
            for value in [1, 0x80] {
                let mut record = [kind, 0, 0, 0, 0, 0, 0, 0];
                record[byte] = value;
                assert_eq!(refusal_of_second(record), (3, 1));
            }
        }
    }
}

#[test]
fn refusal_4_left_operand() {
    for kind in [3, 4, 5, 6, 7] {
        assert_eq!(refusal_of_second([kind, 0, 1, 0, 0, 0, 0, 0]), (4, 1));
        assert_eq!(refusal_of_second([kind, 0, 2, 0, 0, 0, 0, 0]), (4, 1));
        assert_eq!(refusal_of_second([kind, 0, 0, 1, 0, 0, 0, 0]), (4, 1));
        assert_eq!(compile_into(8_184, &[kind, 0, 0, 0, 0, 0, 0, 0]).0, not_compiled(4, 0));
    }
}

#[test]
fn refusal_4_right_operand() {
    for kind in [3, 4, 5] {
        assert_eq!(refusal_of_second([kind, 0, 0, 0, 1, 0, 0, 0]), (4, 1));
        assert_eq!(refusal_of_second([kind, 0, 0, 0, 0, 1, 0, 0]), (4, 1));
        assert_eq!(refusal_of_second([kind, 0, 0, 0, 255, 255, 0, 0]), (4, 1));
    }
}

#[test]
fn refusal_5_never_an_operand() {
    assert_eq!(refusal_of_second(VAL_0), (5, 0));
    #[rustfmt::skip]
    let only_1_unused = [
        1, 0, 0, 0, 0, 0, 0, 0, // 0: Val 0
        1, 0, 0, 0, 0, 0, 0, 0, // 1: Val 0
        1, 0, 0, 0, 0, 0, 0, 0, // 2: Val 0
        3, 0, 0, 0, 2, 0, 0, 0, // 3: Add 0 2
    ];
    assert_eq!(compile_into(8_184, &only_1_unused).0, not_compiled(5, 1));
}

#[test]
fn refusal_5_more_than_once() {
    #[rustfmt::skip]
    let block_twice = [
        1, 0, 0, 0, 0, 0, 0, 0, // 0: Val 0
        6, 0, 0, 0, 0, 0, 0, 0, // 1: Block 0
        7, 0, 1, 0, 0, 0, 0, 0, // 2: Unblock 1
        5, 0, 1, 0, 2, 0, 0, 0, // 3: Catch 1 2
    ];
    assert_eq!(compile_into(8_184, &block_twice).0, not_compiled(5, 1));
}

#[test]
fn refusal_6_code_buffer() {
    for room in [0, 7] {
        assert_eq!(compile_into(room, &VAL_0).0, not_compiled(6, 0));
    }
    assert_eq!(compile_into(8, &VAL_0).0, length(1));
    assert_eq!(compile_into(63, &TREE_A).0, not_compiled(6, 0));
    assert_eq!(compile_into(64, &TREE_A).0, length(8));
}
