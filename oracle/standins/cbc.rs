//! stand-in, not the oracle: the crate cbc, types only.

pub use cipher;

use cipher::{Block, BlockModeDecrypt, BlockModeEncrypt, BlockSizeUser, InnerIvInit, InnerUser, Iv, IvSizeUser, IvState};

macro_rules! mode {
    ($name:ident) => {
        pub struct $name<C>(C);

        impl<C> InnerUser for $name<C> {
            type Inner = C;
        }

        impl<C: BlockSizeUser> BlockSizeUser for $name<C> {
            type BlockSize = C::BlockSize;
        }

        impl<C: BlockSizeUser> IvSizeUser for $name<C> {
            type IvSize = C::BlockSize;
        }

        impl<C: BlockSizeUser> InnerIvInit for $name<C> {
            fn inner_iv_init(inner: C, _: &Iv<Self>) -> Self {
                $name(inner)
            }
        }

        impl<C: BlockSizeUser> IvState for $name<C> {
            fn iv_state(&self) -> Iv<Self> {
                unreachable!("types only")
            }
        }
    };
}

mode!(Encryptor);
mode!(Decryptor);

impl<C: BlockSizeUser> BlockModeEncrypt for Encryptor<C> {
    fn encrypt_block(&mut self, _: &mut Block<Self>) {
        unreachable!("types only")
    }
}

impl<C: BlockSizeUser> BlockModeDecrypt for Decryptor<C> {
    fn decrypt_block(&mut self, _: &mut Block<Self>) {
        unreachable!("types only")
    }
}
