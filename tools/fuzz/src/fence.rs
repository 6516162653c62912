//! Lent memory that ends at a page which cannot be touched, below or above: one byte read or written past it stops the program. On the other side
//! stands a margin that is looked at after the call.
use std::ffi::c_void;

extern "C" {
    fn mmap(at: *mut c_void, bytes: usize, prot: i32, flags: i32, fd: i32, offset: i64) -> *mut c_void;
    fn mprotect(at: *mut c_void, bytes: usize, prot: i32) -> i32;
}
const PAGE: usize = 4096;
const MARGIN: usize = 64;
const MARK: u8 = 0xA5;

/// One buffer at a time, of up to `room` bytes.
pub struct Fence { base: *mut u8, room: usize, at: usize, bytes: usize }

impl Fence {
    pub fn new(room: usize) -> Fence {
        let room = room.div_ceil(PAGE) * PAGE;
        // SAFETY: a private mapping of its own; its two outer pages are left without access, the rest is read and written.
        let base = unsafe { mmap(std::ptr::null_mut(), room + 2 * PAGE, 0, 0x22, -1, 0) } as *mut u8;
        assert!(base as isize != -1, "no memory");
        let base = unsafe { base.add(PAGE) };
        assert_eq!(unsafe { mprotect(base as *mut c_void, room, 3) }, 0);
        Fence { base, room, at: 0, bytes: 0 }
    }

    /// A copy of what is to be lent, against the page above or below it.
    pub fn lend<T: Copy>(&mut self, what: &[T], above: bool) -> *mut T {
        self.bytes = std::mem::size_of_val(what);
        assert!(self.bytes + MARGIN <= self.room);
        self.at = if above { self.room - self.bytes } else { 0 };
        let margin = if above { self.at - MARGIN } else { self.bytes };
        // SAFETY: both lie within the room, which is this buffer's alone.
        unsafe {
            self.base.add(margin).write_bytes(MARK, MARGIN);
            let to = self.base.add(self.at) as *mut T;
            to.copy_from_nonoverlapping(what.as_ptr(), what.len());
            to
        }
    }

    /// What was lent is now exactly this, and the margin is as it was.
    pub fn holds<T: Copy + PartialEq>(&self, what: &[T]) -> bool {
        let margin = if self.at > 0 { self.at - MARGIN } else { self.bytes };
        // SAFETY: as above; `lend` wrote both.
        let (now, marks) = unsafe {
            (std::slice::from_raw_parts(self.base.add(self.at) as *const T, self.bytes / std::mem::size_of::<T>()), std::slice::from_raw_parts(self.base.add(margin), MARGIN))
        };
        now == what && marks.iter().all(|b| *b == MARK)
    }

    /// What it holds now.
    pub fn now<T: Copy>(&self) -> Vec<T> {
        // SAFETY: as above.
        unsafe { std::slice::from_raw_parts(self.base.add(self.at) as *const T, self.bytes / std::mem::size_of::<T>()) }.to_vec()
    }
}
