//! Permitted ends worked out from the rules by hand.

use crate::trees::{add, block, catch, seqn, unblock, val};
use second::evaluation::permitted;
use second::expression::End::{self, Number};
use second::expression::Expression::{self, Throw};
use second::expression::Status::{Blocked, Unblocked};
use std::collections::BTreeSet;

fn check(e: Expression, blocked: &[End], unblocked: &[End]) {
    assert_eq!(permitted(&e, Blocked), blocked.iter().copied().collect::<BTreeSet<_>>());
    assert_eq!(permitted(&e, Unblocked), unblocked.iter().copied().collect::<BTreeSet<_>>());
}

#[test]
fn val_and_throw() {
    check(val(4), &[Number(4)], &[Number(4), End::Throw]);
    check(Throw, &[End::Throw], &[End::Throw]);
}

#[test]
fn sums() {
    check(add(val(1), val(2)), &[Number(3)], &[Number(3), End::Throw]);
    check(add(val(i32::MAX), val(1)), &[Number(i32::MIN)], &[Number(i32::MIN), End::Throw]);
    check(add(val(i32::MIN), val(-1)), &[Number(i32::MAX)], &[Number(i32::MAX), End::Throw]);
    check(add(Throw, val(1)), &[End::Throw], &[End::Throw]);
    check(add(val(1), Throw), &[End::Throw], &[End::Throw]);
}

#[test]
fn sequences() {
    check(seqn(val(1), val(2)), &[Number(2)], &[Number(2), End::Throw]);
    check(seqn(Throw, val(2)), &[End::Throw], &[End::Throw]);
    check(seqn(val(1), Throw), &[End::Throw], &[End::Throw]);
}

#[test]
fn handlers() {
    check(catch(val(1), val(2)), &[Number(1)], &[Number(1), Number(2), End::Throw]);
    check(catch(Throw, val(2)), &[Number(2)], &[Number(2), End::Throw]);
    check(catch(Throw, Throw), &[End::Throw], &[End::Throw]);
}

#[test]
fn blocks() {
    check(block(val(4)), &[Number(4)], &[Number(4), End::Throw]);
    check(unblock(val(4)), &[Number(4), End::Throw], &[Number(4), End::Throw]);
    check(unblock(block(val(4))), &[Number(4), End::Throw], &[Number(4), End::Throw]);
    check(block(unblock(val(4))), &[Number(4), End::Throw], &[Number(4), End::Throw]);
    check(block(block(val(4))), &[Number(4)], &[Number(4), End::Throw]);
}

#[test]
fn blocks_and_handlers() {
    check(
        block(catch(unblock(val(1)), val(2))),
        &[Number(1), Number(2)],
        &[Number(1), Number(2), End::Throw],
    );
    check(catch(block(val(1)), val(2)), &[Number(1)], &[Number(1), Number(2), End::Throw]);
    check(catch(val(1), unblock(val(2))), &[Number(1)], &[Number(1), Number(2), End::Throw]);
}

#[test]
fn all_sums_of_two_choices() {
    check(
        add(catch(val(1), val(2)), catch(val(10), val(20))),
        &[Number(11)],
        &[Number(11), Number(12), Number(21), Number(22), End::Throw],
    );
}

/// 001, section 6: finally (Val 1) (Val 2), with a third number in place of the
/// second copy of y.
#[test]
fn finally_revisited() {
    check(
        block(seqn(catch(unblock(val(1)), seqn(val(2), Throw)), val(3))),
        &[Number(3), End::Throw],
        &[Number(3), End::Throw],
    );
}
