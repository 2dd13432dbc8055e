//! stand-in, not the oracle: russh's kex/hybrid_mlkem.rs, types only.

use super::{KexAlgorithm, KexType};

pub struct MlKem768X25519Kex;

pub struct MlKem768X25519KexType {}

impl KexType for MlKem768X25519KexType {
    fn make(&self) -> KexAlgorithm {
        unreachable!("types only")
    }
}
