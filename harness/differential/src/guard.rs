//! Memory that ends where nothing may be read: a call that reads or writes past the end of its input is stopped there.

use std::ptr::null_mut;

extern "C" {
    fn mmap(at: *mut u8, length: usize, protection: i32, flags: i32, file: i32, offset: i64) -> *mut u8;
    fn mprotect(at: *mut u8, length: usize, protection: i32) -> i32;
}

/// Room for the cases that are not big, and at least one page of any size in use behind it.
const ROOM: usize = 1 << 20;
const WALL: usize = 1 << 16;

pub struct Guard(*mut u8);

impl Guard {
    /// Linux's numbers: readable and writable, private and of no file.
    pub fn new() -> Guard {
        const READ_WRITE: i32 = 3;
        const PRIVATE_ANONYMOUS: i32 = 0x22;
        // Nobody else knows of this memory, and it is never given back.
        let start = unsafe { mmap(null_mut(), ROOM + WALL, READ_WRITE, PRIVATE_ANONYMOUS, -1, 0) };
        assert!(start as isize != -1, "no memory");
        assert_eq!(unsafe { mprotect(start.add(ROOM), WALL, 0) }, 0);
        Guard(start)
    }

    /// A copy of `bytes` that ends at the wall; `bytes` itself where they are too many.
    pub fn place<'a>(&'a mut self, bytes: &'a [u8]) -> &'a [u8] {
        if bytes.len() > ROOM {
            return bytes;
        }
        // The copy lies inside the room, which the borrow of self keeps from other use.
        let room = unsafe { std::slice::from_raw_parts_mut(self.0, ROOM) };
        let copy = &mut room[ROOM - bytes.len()..];
        copy.copy_from_slice(bytes);
        copy
    }
}
