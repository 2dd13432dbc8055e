//! stand-in, not the oracle: the crate aes, types only.

pub use cipher;

use generic_array::typenum::{U16, U24, U32};

macro_rules! aes {
    ($name:ident, $size:ty) => {
        #[derive(Clone)]
        pub struct $name;

        impl cipher::KeySizeUser for $name {
            type KeySize = $size;
        }

        impl cipher::BlockSizeUser for $name {
            type BlockSize = U16;
        }

        impl cipher::KeyInit for $name {
            fn new(_: &cipher::Key<Self>) -> Self {
                $name
            }
        }

        impl cipher::BlockCipherEncrypt for $name {}
        impl cipher::BlockCipherDecrypt for $name {}
    };
}

aes!(Aes128, U16);
aes!(Aes192, U24);
aes!(Aes256, U32);
