//! That lent memory is guarded: stand-ins for the library that overstep what they were lent, each called in a child as the
//! library is called, and whether the child ended as it must.

use crate::lender::{UNSTEADY, reading, writing};
use std::ffi::c_int;

unsafe extern "C" {
    fn _exit(status: c_int) -> !;
    fn close(file: c_int) -> c_int;
    fn fork() -> c_int;
    fn setrlimit(resource: c_int, limits: *const [u64; 2]) -> c_int;
    fn waitpid(child: c_int, status: *mut c_int, options: c_int) -> c_int;
}

const STDERR: c_int = 2;
const RLIMIT_CORE: c_int = 4;
const SIGSEGV: c_int = 11;

/// What a stand-in gets: bytes, a column, an empty slice and `out`, and of each the count.
struct Lent {
    bytes: (*const u8, usize),
    column: (*const u32, usize),
    empty: *const u8,
    out: (*mut u8, usize),
}

type StandIn = unsafe fn(Lent);

/// what it does, whether it is to be ended, and the stand-in
const STAND_INS: [(&str, bool, StandIn); 9] = [
    ("one that keeps to what it is lent is not ended", false, |l| unsafe { keeps(l) }),
    ("a byte read past an input", true, |l| unsafe { read(l.bytes.0.add(l.bytes.1)) }),
    ("a byte read before an input", true, |l| unsafe { read(l.bytes.0.sub(1)) }),
    ("an identity read past a column", true, |l| unsafe { read(l.column.0.add(l.column.1)) }),
    ("a byte read of an empty input that is not null", true, |l| unsafe { reads_nothing(l) }),
    ("a byte written to an input", true, |l| unsafe { l.bytes.0.cast_mut().write_volatile(1) }),
    ("a byte written past out", true, |l| unsafe { l.out.0.add(l.out.1).write_volatile(1) }),
    ("a byte written before out", true, |l| unsafe { l.out.0.sub(1).write_volatile(1) }),
    ("a byte read past out", true, |l| unsafe { read(l.out.0.add(l.out.1)) }),
];

unsafe fn read<T>(at: *const T) {
    unsafe { at.read_volatile() };
}

/// the first and the last of everything
unsafe fn keeps(l: Lent) {
    unsafe {
        read(l.bytes.0);
        read(l.bytes.0.add(l.bytes.1 - 1));
        read(l.column.0);
        read(l.column.0.add(l.column.1 - 1));
        l.out.0.write_volatile(1);
        l.out.0.add(l.out.1 - 1).write_volatile(1);
    }
}

unsafe fn reads_nothing(l: Lent) {
    if !l.empty.is_null() {
        unsafe { read(l.empty) }
    }
}

fn lends(stand_in: StandIn, len: usize) {
    let (bytes, column, mut out) = (vec![1u8; len], vec![2u32; len], vec![3u8; len]);
    let called = writing(&mut out, |l, out, len| {
        let bytes = (l.lend(&bytes), bytes.len());
        let column = (l.lend(&column), column.len());
        unsafe { stand_in(Lent { bytes, column, empty: l.lend::<u8>(&[]), out: (out, len) }) }
    });
    assert_eq!(called, Ok(()), "a stand-in does the same at both edges");
}

/// whether a child that calls the stand-in is ended by the signal for memory that may not be touched, if it must be
fn as_it_must_be(ended: bool, stand_in: StandIn, len: usize) -> bool {
    unsafe {
        let child = fork();
        assert!(child != -1, "a child for a stand-in");
        if child == 0 {
            // its end is wanted: no file to look into, and no word of an emulator's about it
            setrlimit(RLIMIT_CORE, &[0, 0]);
            close(STDERR);
            lends(stand_in, len);
            _exit(0);
        }
        let mut status = 0;
        assert_eq!(waitpid(child, &mut status, 0), child, "a stand-in's child");
        if ended { status & 0x7F == SIGSEGV } else { status == 0 }
    }
}

/// few elements, and more than the memory is made for at first
const LENGTHS: [usize; 2] = [5, 600_000];

/// What must be so, and whether it is.
pub fn bites() -> Vec<(&'static str, bool)> {
    let mut all = Vec::new();
    for (what, ended, stand_in) in STAND_INS {
        all.push((what, LENGTHS.iter().all(|len| as_it_must_be(ended, stand_in, *len))));
    }
    let answer = reading(|l| l.lend(&[1u8]) as usize);
    all.push(("an answer that is another at each edge is seen", answer == Err(UNSTEADY.into())));
    let answer = writing(&mut [3u8; 7], |_, out, _| unsafe { out.write(out as usize as u8) });
    all.push(("what is written is another at each edge, and that is seen", answer == Err(UNSTEADY.into())));
    all
}
