//! stand-in, not the oracle: the crate p521, types only.

pub struct NistP521;
