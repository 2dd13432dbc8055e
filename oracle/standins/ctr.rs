//! stand-in, not the oracle: the crate ctr, types only.

use cipher::{BlockSizeUser, InOutBuf, InnerIvInit, InnerUser, Iv, IvSizeUser, StreamCipher, StreamCipherError, StreamCipherSeek};

pub struct Ctr128BE<C>(C);

impl<C> InnerUser for Ctr128BE<C> {
    type Inner = C;
}

impl<C: BlockSizeUser> IvSizeUser for Ctr128BE<C> {
    type IvSize = C::BlockSize;
}

impl<C: BlockSizeUser> InnerIvInit for Ctr128BE<C> {
    fn inner_iv_init(inner: C, _: &Iv<Self>) -> Self {
        Ctr128BE(inner)
    }
}

impl<C> StreamCipher for Ctr128BE<C> {
    fn check_remaining(&self, _: usize) -> Result<(), StreamCipherError> {
        unreachable!("types only")
    }

    fn unchecked_apply_keystream_inout(&mut self, _: InOutBuf<'_, '_, u8>) {
        unreachable!("types only")
    }

    fn unchecked_write_keystream(&mut self, _: &mut [u8]) {
        unreachable!("types only")
    }
}

impl<C> StreamCipherSeek for Ctr128BE<C> {
    fn seek(&mut self, _: u64) {
        unreachable!("types only")
    }

    fn current_pos(&self) -> u64 {
        unreachable!("types only")
    }
}
