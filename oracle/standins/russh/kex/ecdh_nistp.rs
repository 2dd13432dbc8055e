//! stand-in, not the oracle: russh's kex/ecdh_nistp.rs, types only.

use super::{KexAlgorithm, KexType};
use std::marker::PhantomData;

pub struct EcdhNistPKex<C, D>(PhantomData<(C, D)>);

pub struct EcdhNistP256KexType {}

impl KexType for EcdhNistP256KexType {
    fn make(&self) -> KexAlgorithm {
        unreachable!("types only")
    }
}

pub struct EcdhNistP384KexType {}

impl KexType for EcdhNistP384KexType {
    fn make(&self) -> KexAlgorithm {
        unreachable!("types only")
    }
}

pub struct EcdhNistP521KexType {}

impl KexType for EcdhNistP521KexType {
    fn make(&self) -> KexAlgorithm {
        unreachable!("types only")
    }
}
