//! Memory to lend, with pages on both sides that nobody may touch. It is mapped twice, so that no call has to change what
//! a page allows: once to be filled, and once as it is lent, for reading alone where it is lent so.

use std::ffi::{c_char, c_int, c_long, c_uint, c_void};
use std::ptr::null_mut;

unsafe extern "C" {
    fn close(file: c_int) -> c_int;
    fn ftruncate(file: c_int, len: i64) -> c_int;
    fn memfd_create(name: *const c_char, flags: c_uint) -> c_int;
    fn mmap(at: *mut c_void, len: usize, allowed: c_int, flags: c_int, file: c_int, offset: i64) -> *mut c_void;
    fn mprotect(at: *mut c_void, len: usize, allowed: c_int) -> c_int;
    fn munmap(at: *mut c_void, len: usize) -> c_int;
    fn sysconf(name: c_int) -> c_long;
}

const MAP_SHARED: c_int = 1;
const SC_PAGESIZE: c_int = 30;

/// PROT_NONE, PROT_READ, and PROT_READ with PROT_WRITE
const NOTHING: c_int = 0;
pub const READ: c_int = 1;
pub const WRITE: c_int = 3;

/// More than any case lends.
const LEAST: usize = 1 << 19;

/// The end of its memory at which a slice stands.
#[derive(Clone, Copy, PartialEq, Eq)]
pub enum Edge {
    Front,
    Back,
}

pub struct Region {
    filled: *mut u8,
    lent: *mut u8,
    len: usize,
    allowed: c_int,
}

impl Region {
    pub fn new(allowed: c_int) -> Region {
        Region::of(LEAST, allowed)
    }

    /// As much that may not be touched stands on either side. A power of two is a multiple of the page, and of a larger one
    /// that the machine below an emulator may have.
    fn of(least: usize, allowed: c_int) -> Region {
        unsafe {
            let len = least.max(done(sysconf(SC_PAGESIZE) as isize) as usize).next_power_of_two();
            let file = done(memfd_create(c"lent".as_ptr(), 0) as isize) as c_int;
            done(ftruncate(file, 3 * len as i64) as isize);
            let lent = done(mmap(null_mut(), 3 * len, NOTHING, MAP_SHARED, file, 0) as isize) as *mut u8;
            let lent = lent.add(len);
            done(mprotect(lent.cast(), len, allowed) as isize);
            let filled = done(mmap(null_mut(), len, WRITE, MAP_SHARED, file, len as i64) as isize) as *mut u8;
            done(close(file) as isize);
            Region { filled, lent, len, allowed }
        }
    }

    /// Where a slice of so many bytes starts.
    fn start(&self, len: usize, edge: Edge) -> usize {
        match edge {
            Edge::Front => 0,
            Edge::Back => self.len - len,
        }
    }

    /// A copy of the slice at an edge, as it is lent. A slice of nothing: at the front null, at the back a pointer to what
    /// may not be touched.
    pub fn lend<T: Copy>(&mut self, s: &[T], edge: Edge) -> *mut T {
        let len = size_of_val(s);
        if len == 0 && edge == Edge::Front {
            return null_mut();
        }
        if len > self.len {
            *self = Region::of(len, self.allowed);
        }
        let start = self.start(len, edge);
        unsafe {
            self.filled.add(start).copy_from_nonoverlapping(s.as_ptr().cast(), len);
            self.lent.add(start).cast()
        }
    }

    /// What so many bytes at an edge hold now.
    pub fn held(&self, len: usize, edge: Edge) -> &[u8] {
        unsafe { std::slice::from_raw_parts(self.filled.add(self.start(len, edge)), len) }
    }
}

impl Drop for Region {
    fn drop(&mut self) {
        unsafe {
            munmap(self.filled.cast(), self.len);
            munmap(self.lent.sub(self.len).cast(), 3 * self.len);
        }
    }
}

/// Each of these calls says -1 where it fails.
fn done(answer: isize) -> isize {
    assert!(answer != -1, "memory to lend: {}", std::io::Error::last_os_error());
    answer
}
