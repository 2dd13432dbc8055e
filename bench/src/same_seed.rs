//! The keys of std's hash maps, which the Rust looks names up in, are the same in each run, so that its counts can be had
//! again. std takes them from `getrandom`, and lets a program define that itself.

#[unsafe(no_mangle)]
extern "C" fn getrandom(out: *mut u8, len: usize, _flags: u32) -> isize {
    for i in 0..len {
        // Safety: the caller lends so many bytes.
        unsafe { out.add(i).write(i as u8) };
    }
    len as isize
}
