//! Memory next to pages that cannot be touched.

use crate::library::{mmap, mprotect, Bytes, IMAGE_MAX, PAGE_BYTES, RECORD, RESULT, SESSION, VCPU_BYTES};
use std::ptr::null_mut;
use std::slice::from_raw_parts;

pub const PAGE: usize = 4096;

/// Pages with one before and one behind them that cannot be touched.
#[derive(Clone, Copy)]
pub struct Room {
    pub start: Bytes,
    pub size: usize,
}

impl Room {
    pub fn new(bytes: usize) -> Room {
        let size = bytes.next_multiple_of(PAGE);
        // SAFETY: new memory, of which nothing else knows.
        unsafe {
            let (private, anonymous, readable, writable) = (2, 0x20, 1, 2);
            let all = mmap(null_mut(), size + 2 * PAGE, 0, private | anonymous, -1, 0).cast::<u8>();
            assert!(all as isize != -1, "no memory");
            let start = all.add(PAGE);
            assert_eq!(mprotect(start.cast(), size, readable | writable), 0);
            Room { start, size }
        }
    }

    /// The place of so many bytes, at the end of the pages or at their beginning.
    pub fn place(self, at_end: bool, bytes: usize) -> Bytes {
        assert!(bytes <= self.size);
        // SAFETY: inside the pages.
        unsafe { self.start.add(if at_end { self.size - bytes } else { 0 }) }
    }
}

/// All that calls are lent, on one of the two sides.
pub struct Side {
    pub at_end: bool,
    pub session: Bytes,
    pub vcpus: Bytes,
    pub pages: Bytes,
    pub result: Bytes,
    pub page: Bytes,
    pub input: Room,
    pub own: Room,
    pub out: Room,
    pub guest: Room,
    pub list: Room,
    pub signals: Room,
}

impl Side {
    pub fn new(at_end: bool) -> Side {
        let place = |bytes| Room::new(bytes).place(at_end, bytes);
        Side {
            at_end,
            session: place(SESSION),
            vcpus: place(VCPU_BYTES),
            pages: place(PAGE_BYTES),
            result: place(RESULT),
            page: place(24),
            input: Room::new(IMAGE_MAX + PAGE),
            own: Room::new(2 * PAGE),
            out: Room::new(IMAGE_MAX + PAGE),
            guest: Room::new(5 * PAGE),
            list: Room::new(20 * RECORD),
            signals: Room::new(PAGE),
        }
    }

    pub fn input(&self, bytes: usize) -> Bytes {
        self.input.place(self.at_end, bytes)
    }

    pub fn own(&self, bytes: usize) -> Bytes {
        self.own.place(self.at_end, bytes)
    }

    pub fn out(&self, bytes: usize) -> Bytes {
        self.out.place(self.at_end, bytes)
    }

    pub fn guest(&self, bytes: usize) -> Bytes {
        self.guest.place(self.at_end, bytes)
    }

    pub fn list(&self, records: usize) -> Bytes {
        self.list.place(self.at_end, records * RECORD)
    }

    pub fn signals(&self, places: usize) -> Bytes {
        self.signals.place(self.at_end, 4 * places)
    }
}

/// # Safety
/// So many bytes are there, and nobody writes to them while the slice is used.
pub unsafe fn seen<'a>(at: Bytes, bytes: usize) -> &'a [u8] {
    // SAFETY: the caller's.
    unsafe { from_raw_parts(at, bytes) }
}
