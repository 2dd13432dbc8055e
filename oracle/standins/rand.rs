//! stand-in, not the oracle: the crate rand; it hands out the bytes that the case lends, so a written cookie needs no mask.

use std::cell::RefCell;

thread_local! {
    static LENT: RefCell<Vec<u8>> = const { RefCell::new(Vec::new()) };
}

/// what the next random bytes are
pub fn lend(bytes: &[u8]) {
    LENT.with(|lent| *lent.borrow_mut() = bytes.to_vec());
}

pub trait CryptoRng: rand_core::Rng {}

pub struct Lent;

impl rand_core::Rng for Lent {
    fn fill_bytes(&mut self, out: &mut [u8]) {
        LENT.with(|lent| out.copy_from_slice(&lent.borrow_mut().drain(..out.len()).collect::<Vec<u8>>()));
    }
}

impl CryptoRng for Lent {}

pub fn rng() -> Lent {
    Lent
}
