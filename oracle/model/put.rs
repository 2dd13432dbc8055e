//! crates/put/specs/Written

use crate::answer::{Out, guard};

/// uint32, big-endian
pub fn word(n: u64) -> Vec<u8> {
    [n / 256 / 256 / 256 % 256, n / 256 / 256 % 256, n / 256 % 256, n % 256].map(|b| b as u8).to_vec()
}

/// the answer: the position after what was written
pub fn written(out: &[u8], at: usize, what: &Out<Vec<u8>>) -> Out<usize> {
    let x = what.as_ref().map_err(|r| *r)?;
    guard(8, at + x.len() <= out.len())?;
    Ok(at + x.len())
}

/// what the buffer then holds
pub fn buffer(out: &[u8], at: usize, what: &Out<Vec<u8>>) -> Vec<u8> {
    let mut left = out.to_vec();
    if let Ok(x) = what {
        if at + x.len() <= out.len() {
            left[at..at + x.len()].copy_from_slice(x);
        }
    }
    left
}
