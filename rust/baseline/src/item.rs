//! The items of the machine's stack, kept in the lent buffer.

use crate::state::State;

/// The part of the stack buffer that holds the items.
pub type Stack = [[u8; 8]; State::ITEMS];

pub const NUMBER: u32 = 0;
pub const HANDLER: u32 = 1;
pub const STATUS: u32 = 2;

/// An item is one word, its sort above its value. A number is thus below
/// 2^32, so one test tells two numbers.
#[derive(Clone, Copy)]
pub struct Item(u64);

impl Item {
    #[inline(always)]
    pub fn new(sort: u32, value: u32) -> Self {
        Self(u64::from(sort) << 32 | u64::from(value))
    }

    #[inline(always)]
    pub fn read(slot: &[u8; 8]) -> Self {
        Self(u64::from_le_bytes(*slot))
    }

    #[inline(always)]
    pub fn bytes(self) -> [u8; 8] {
        self.0.to_le_bytes()
    }

    #[inline(always)]
    pub fn sort(self) -> u32 {
        (self.0 >> 32) as u32
    }

    #[inline(always)]
    pub fn value(self) -> u32 {
        self.0 as u32
    }

    #[inline(always)]
    pub fn both_numbers(self, other: Self) -> bool {
        (self.0 | other.0) >> 32 == 0
    }
}
