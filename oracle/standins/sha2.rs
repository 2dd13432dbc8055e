//! stand-in, not the oracle: the crate sha2, types only.

pub struct Sha256;
pub struct Sha384;
pub struct Sha512;

impl digest::OutputSizeUser for Sha256 {
    type OutputSize = digest::typenum::U32;
}

impl digest::OutputSizeUser for Sha512 {
    type OutputSize = digest::typenum::U64;
}
