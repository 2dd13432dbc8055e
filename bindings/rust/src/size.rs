//! Counts and places: the library's have 64 bits on every processor, those of slices as many as the processor's addresses.

use crate::ffi::Size;
use crate::refusal::{ReadRefusal, Refusal};

/// No bit is lost: a `Size` is at least as wide.
pub const fn widen(n: usize) -> Size {
    n as Size
}

/// What the library answers is a place in a slice, or a need of at most 262,181 bytes, and so it fits. It is judged all the
/// same: a wrong answer shall not become a right one by losing bits.
#[allow(clippy::useless_conversion)] // it is not where a `Size` is a `u64`
pub fn narrow(n: Size) -> Result<usize, ReadRefusal> {
    n.try_into().map_err(|_| Refusal::PastEnd.at(0))
}

#[cfg(test)]
mod tests {
    use super::*;

    #[test]
    fn what_fits_stays() {
        for n in [0, 262_181, usize::MAX] {
            assert_eq!(narrow(widen(n)), Ok(n));
        }
    }

    #[cfg(target_pointer_width = "32")]
    #[test]
    fn what_does_not_fit_is_refused() {
        for n in [1 << 32, (1 << 32) + 5, u64::MAX] {
            assert_eq!(narrow(n), Err(Refusal::PastEnd.at(0)));
        }
    }
}
