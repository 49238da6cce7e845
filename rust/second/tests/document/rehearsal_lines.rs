//! The rehearsal program's lines.

use crate::recipes::{ADD_MAX_1, TREE_A, VAL_ADD_0_0};
use crate::run_only::blocks;
use second::rehearse;

fn input(status: u8, table: &[u8], schedule: &[u8]) -> Vec<u8> {
    let length = (table.len() as u16).to_le_bytes();
    [&[status], length.as_slice(), table, schedule].concat()
}

#[test]
fn the_documents_example() {
    let input = [0x01, 0x08, 0x00, 0x01, 0, 0, 0, 0x09, 0, 0, 0];
    assert_eq!(rehearse(&input), "number 9 steps 1 reached 1\n");
}

#[test]
fn with_a_schedule() {
    let input = [0x01, 0x08, 0x00, 0x01, 0, 0, 0, 0x09, 0, 0, 0, 0x01];
    assert_eq!(rehearse(&input), "throw steps 1 reached 1\n");
}

#[test]
fn tree_a_with_recall_5() {
    assert_eq!(rehearse(&input(1, &TREE_A, &[0x20])), "throw steps 10 reached 6\n");
}

#[test]
fn a_minus_sign() {
    assert_eq!(rehearse(&input(0, &ADD_MAX_1, &[])), "number -2147483648 steps 3 reached 3\n");
}

#[test]
fn refused_tables() {
    assert_eq!(rehearse(&input(1, &VAL_ADD_0_0, &[])), "refused 5 at 0\n");
    let second_kind_0 = [1, 0, 0, 0, 0, 0, 0, 0, 0, 0, 0, 0, 0, 0, 0, 0];
    assert_eq!(rehearse(&input(1, &second_kind_0, &[])), "refused 2 at 1\n");
    assert_eq!(rehearse(&[1, 0, 0]), "refused 1 at 0\n");
    assert_eq!(rehearse(&input(1, &TREE_A[..12], &[])), "refused 1 at 0\n");
}

#[test]
fn the_table_is_refused_before_the_status() {
    assert_eq!(rehearse(&input(2, &TREE_A, &[])), "refused 7 at 0\n");
    assert_eq!(rehearse(&input(2, &VAL_ADD_0_0, &[])), "refused 5 at 0\n");
}

#[test]
fn too_short() {
    assert_eq!(rehearse(&[]), "refused 1 at 0\n");
    assert_eq!(rehearse(&[1]), "refused 1 at 0\n");
    assert_eq!(rehearse(&[1, 8]), "refused 1 at 0\n");
    assert_eq!(rehearse(&[1, 8, 0, 1, 0, 0, 0, 9, 0, 0]), "refused 1 at 0\n");
}

#[test]
fn the_largest_recipe() {
    assert_eq!(rehearse(&input(0, &blocks(511), &[0xFF; 128])), "number 3 steps 1023 reached 1023\n");
    assert_eq!(rehearse(&input(0, &blocks(512), &[0xFF; 128])), "refused 1 at 0\n");
}

#[test]
fn bytes_past_8192_do_not_count() {
    let mut long = input(1, &[1, 0, 0, 0, 9, 0, 0, 0], &[0; 9_000]);
    assert_eq!(rehearse(&long), "number 9 steps 1 reached 1\n");
    long[11] = 1;
    assert_eq!(rehearse(&long), "throw steps 1 reached 1\n");
    assert_eq!(rehearse(&input(1, &[1; 8_190], &[1])), "refused 1 at 0\n");
}
