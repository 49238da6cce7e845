//! Buffers longer than 32 bits can say: pages of zeros, which take no memory, behind a front that may be written.

use crate::system::Pages;
use crate::worker::Buffer;
use std::slice;

/// What 32 bits cannot say any more.
pub const OVER: usize = 1 << 32;

/// The part that may be written: more than a worker has to write.
const FRONT: usize = 64 * 1024;
/// What stands there before a call, after the bytes that are given.
const FRESH: u8 = 0xa5;

pub struct Vast(Pages);

impl Vast {
    pub fn nothing() -> Vast {
        let mut pages = Pages::readable(OVER + FRONT);
        pages.open(0, FRONT);
        Vast(pages)
    }

    /// A buffer that begins with these bytes; its length may be more than 32 bits can say.
    pub fn lend(&mut self, bytes: &[u8], length: usize) -> Buffer {
        assert!(bytes.len() <= length && length <= OVER + FRONT);
        let (first, later) = self.front().split_at_mut(bytes.len());
        first.copy_from_slice(bytes);
        later.fill(FRESH);
        Buffer { start: self.0.start, length }
    }

    /// Whether the buffer still begins with these bytes, and what is after them is as it was, as far as it may be written.
    pub fn holds(&mut self, bytes: &[u8]) -> bool {
        let (first, later) = self.front().split_at(bytes.len());
        first == bytes && later.iter().all(|&byte| byte == FRESH)
    }

    /// All that may be written.
    pub fn front(&mut self) -> &mut [u8] {
        // SAFETY: these pages are open, and this value's own until it is dropped.
        unsafe { slice::from_raw_parts_mut(self.0.start, FRONT) }
    }
}
