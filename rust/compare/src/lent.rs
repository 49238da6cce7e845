//! Buffers to lend, between pages that may not be touched: a read or a write past the one end, or before the other, stops the
//! program at once. Towards the other end, or at both, guard bytes stand, which must be as they were afterwards.

use crate::system::Pages;
use crate::worker::Buffer;
use std::ops::Range;
use std::ptr;
use std::slice;

/// The longest buffer that can be lent: more than twice what a length of 16 bits can say.
pub const MOST: usize = 192 * 1024;

/// A multiple of the system's pages, which are of 4, 16 or 64 KiB.
const PAGE: usize = 64 * 1024;
const GUARDS: usize = 64;
const GUARD: u8 = 0xc3;
/// Between the two pages.
const ROOM: usize = MOST + PAGE;

/// Where a buffer lies.
#[derive(Clone, Copy, Debug, PartialEq)]
pub enum Place {
    /// It begins at the end of a page that may not be touched.
    Front,
    /// It ends at the beginning of one.
    Back,
    /// Guard bytes stand on both sides, and it begins so many bytes past a multiple of 8.
    Amid(usize),
    /// It has no bytes, and its pointer is null.
    Null,
}

pub struct Lent {
    pages: Pages,
    lent: Range<usize>,
}

impl Lent {
    pub fn nothing() -> Lent {
        let mut pages = Pages::closed(PAGE + ROOM + PAGE);
        pages.open(PAGE, ROOM);
        Lent { pages, lent: 0..0 }
    }

    /// A buffer with these bytes, at a place. It is lent until the next one is, or this value is dropped.
    pub fn lend(&mut self, bytes: &[u8], place: Place) -> Buffer {
        let length = bytes.len();
        assert!(length <= MOST);
        self.lent = match place {
            Place::Front => 0..length,
            Place::Back => ROOM - length..ROOM,
            Place::Amid(offset) => GUARDS + offset..GUARDS + offset + length,
            Place::Null => {
                assert_eq!(length, 0, "bytes have to lie somewhere");
                0..0
            }
        };
        for guards in self.guards() {
            self.room()[guards].fill(GUARD);
        }
        self.lent_bytes().copy_from_slice(bytes);
        let start = match place {
            Place::Null => ptr::null_mut(),
            // SAFETY: in the room, or at its end.
            _ => unsafe { self.pages.start.add(PAGE + self.lent.start) },
        };
        Buffer { start, length }
    }

    /// Whether the buffer now has just these bytes, with every guard byte around it as it was.
    pub fn holds(&mut self, bytes: &[u8]) -> bool {
        self.lent_bytes() == bytes
            && self.guards().into_iter().all(|guards| self.room()[guards].iter().all(|&byte| byte == GUARD))
    }

    /// What the buffer has now.
    pub fn lent_bytes(&mut self) -> &mut [u8] {
        let lent = self.lent.clone();
        &mut self.room()[lent]
    }

    /// Before and after the buffer, as far as there is room.
    fn guards(&self) -> [Range<usize>; 2] {
        let Range { start, end } = self.lent;
        [start.saturating_sub(GUARDS)..start, end..(end + GUARDS).min(ROOM)]
    }

    fn room(&mut self) -> &mut [u8] {
        // SAFETY: these pages are open, and this value's own until it is dropped.
        unsafe { slice::from_raw_parts_mut(self.pages.start.add(PAGE), ROOM) }
    }
}
