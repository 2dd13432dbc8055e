//! stand-in, not the oracle: the crate p256, types only.

pub struct NistP256;
