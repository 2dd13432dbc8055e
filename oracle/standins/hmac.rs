//! stand-in, not the oracle: the crate hmac, types only.

use std::marker::PhantomData;

pub struct Hmac<D>(PhantomData<D>);

impl<D: digest::OutputSizeUser> digest::OutputSizeUser for Hmac<D> {
    type OutputSize = D::OutputSize;
}

impl<D> digest::KeyInit for Hmac<D> {
    fn new_from_slice(_: &[u8]) -> Result<Self, digest::InvalidLength> {
        Err(digest::InvalidLength)
    }
}

impl<D: digest::OutputSizeUser> digest::Mac for Hmac<D> {
    fn update(&mut self, _: &[u8]) {
        unreachable!("types only")
    }

    fn finalize(self) -> digest::Code<D::OutputSize> {
        unreachable!("types only")
    }
}
