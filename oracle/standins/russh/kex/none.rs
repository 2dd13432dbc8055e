//! stand-in, not the oracle: russh's kex/none.rs, types only.

use super::{KexAlgorithm, KexType};

pub struct NoneKexAlgorithm;

pub struct NoneKexType {}

impl KexType for NoneKexType {
    fn make(&self) -> KexAlgorithm {
        unreachable!("types only")
    }
}
