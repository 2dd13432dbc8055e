//! stand-in, not the oracle: the crate signature, types only.

#[derive(Debug)]
pub struct Error;

pub trait Signer<S> {
    fn try_sign(&self, data: &[u8]) -> Result<S, Error>;
}
