//! stand-in, not the oracle: the crate digest, types only: no hash is computed.

pub use generic_array::typenum;

use generic_array::{ArrayLength, GenericArray};

pub trait OutputSizeUser {
    type OutputSize: ArrayLength;
}

#[derive(Debug)]
pub struct InvalidLength;

pub trait KeyInit: Sized {
    fn new_from_slice(key: &[u8]) -> Result<Self, InvalidLength>;
}

pub struct Code<N>(pub GenericArray<u8, N>);

impl<N> Code<N> {
    pub fn into_bytes(self) -> GenericArray<u8, N> {
        self.0
    }
}

pub trait Mac: OutputSizeUser + Sized {
    fn update(&mut self, data: &[u8]);
    fn finalize(self) -> Code<Self::OutputSize>;
}

pub struct Hash(pub Vec<u8>);

impl AsRef<[u8]> for Hash {
    fn as_ref(&self) -> &[u8] {
        &self.0
    }
}

pub trait Digest: Sized {
    fn new() -> Self;
    fn update(&mut self, data: &[u8]);
    fn finalize(self) -> Hash;
}
