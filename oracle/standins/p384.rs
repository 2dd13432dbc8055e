//! stand-in, not the oracle: the crate p384, types only.

pub struct NistP384;
