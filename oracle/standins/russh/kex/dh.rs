//! stand-in, not the oracle: russh's kex/dh, types only.

use super::{KexAlgorithm, KexType};
use std::marker::PhantomData;

pub mod groups {
    pub struct DhGroup;
}

pub struct DhGroupKex<D>(PhantomData<D>);

pub struct DhGexSha1KexType {}

impl KexType for DhGexSha1KexType {
    fn make(&self) -> KexAlgorithm {
        unreachable!("types only")
    }
}

pub struct DhGexSha256KexType {}

impl KexType for DhGexSha256KexType {
    fn make(&self) -> KexAlgorithm {
        unreachable!("types only")
    }
}

pub struct DhGroup1Sha1KexType {}

impl KexType for DhGroup1Sha1KexType {
    fn make(&self) -> KexAlgorithm {
        unreachable!("types only")
    }
}

pub struct DhGroup14Sha1KexType {}

impl KexType for DhGroup14Sha1KexType {
    fn make(&self) -> KexAlgorithm {
        unreachable!("types only")
    }
}

pub struct DhGroup14Sha256KexType {}

impl KexType for DhGroup14Sha256KexType {
    fn make(&self) -> KexAlgorithm {
        unreachable!("types only")
    }
}

pub struct DhGroup15Sha512KexType {}

impl KexType for DhGroup15Sha512KexType {
    fn make(&self) -> KexAlgorithm {
        unreachable!("types only")
    }
}

pub struct DhGroup16Sha512KexType {}

impl KexType for DhGroup16Sha512KexType {
    fn make(&self) -> KexAlgorithm {
        unreachable!("types only")
    }
}

pub struct DhGroup17Sha512KexType {}

impl KexType for DhGroup17Sha512KexType {
    fn make(&self) -> KexAlgorithm {
        unreachable!("types only")
    }
}

pub struct DhGroup18Sha512KexType {}

impl KexType for DhGroup18Sha512KexType {
    fn make(&self) -> KexAlgorithm {
        unreachable!("types only")
    }
}
