//! What was asked when the library touched memory that it was not lent: the run ends there, and says what it was.

use crate::question::Question;
use std::ffi::c_int;
use std::ptr::null_mut;
use std::sync::atomic::{AtomicPtr, Ordering::Relaxed};

unsafe extern "C" {
    fn signal(number: c_int, handler: usize) -> usize;
}

const SIGSEGV: c_int = 11;
const SIG_DFL: usize = 0;

static ASKED: AtomicPtr<Question> = AtomicPtr::new(null_mut());

/// Whatever the library is asked in `answer` is put down to this question.
pub fn asking<T>(question: &Question, answer: impl FnOnce() -> T) -> T {
    ASKED.store((question as *const Question).cast_mut(), Relaxed);
    let answer = answer();
    ASKED.store(null_mut(), Relaxed);
    answer
}

pub fn watched() {
    let handler: extern "C" fn(c_int) = said;
    unsafe { signal(SIGSEGV, handler as usize) };
}

/// When it returns, the memory is touched again, and the signal ends the run.
extern "C" fn said(_: c_int) {
    unsafe { signal(SIGSEGV, SIG_DFL) };
    if let Some(question) = unsafe { ASKED.load(Relaxed).as_ref() } {
        println!("OVERSTEPPED: the library touched memory that it was not lent, asked\n  {}", question.line());
    }
}
