//! stand-in, not the oracle: russh's kex/curve25519.rs, types only.

use super::{KexAlgorithm, KexType};

pub struct Curve25519Kex;

pub struct Curve25519KexType {}

impl KexType for Curve25519KexType {
    fn make(&self) -> KexAlgorithm {
        unreachable!("types only")
    }
}
