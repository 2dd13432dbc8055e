//! stand-in, not the oracle: the crate rand_core.

pub trait Rng {
    fn fill_bytes(&mut self, out: &mut [u8]);
}
