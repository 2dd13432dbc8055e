//! stand-in, not the oracle: the crate cipher, types only: nothing is sealed or opened but in the clear.

use generic_array::typenum::Unsigned;
use generic_array::{ArrayLength, GenericArray};
use std::marker::PhantomData;

pub mod common {
    pub use crate::InnerUser;
}

pub trait KeySizeUser {
    type KeySize: ArrayLength;

    fn key_size() -> usize {
        Self::KeySize::to_usize()
    }
}

pub trait IvSizeUser {
    type IvSize: ArrayLength;

    fn iv_size() -> usize {
        Self::IvSize::to_usize()
    }
}

pub trait BlockSizeUser {
    type BlockSize: ArrayLength;

    fn block_size() -> usize {
        Self::BlockSize::to_usize()
    }
}

impl<T: BlockSizeUser> BlockSizeUser for &T {
    type BlockSize = T::BlockSize;
}

pub type Key<C> = GenericArray<u8, <C as KeySizeUser>::KeySize>;
pub type Iv<C> = GenericArray<u8, <C as IvSizeUser>::IvSize>;
pub type Block<C> = GenericArray<u8, <C as BlockSizeUser>::BlockSize>;

pub trait KeyInit: KeySizeUser + Sized {
    fn new(key: &Key<Self>) -> Self;
}

pub trait KeyIvInit: KeySizeUser + IvSizeUser + Sized {
    fn new(key: &Key<Self>, iv: &Iv<Self>) -> Self;
}

pub trait InnerUser {
    type Inner;
}

pub trait InnerIvInit: InnerUser + IvSizeUser + Sized {
    fn inner_iv_init(inner: Self::Inner, iv: &Iv<Self>) -> Self;
}

impl<T: InnerUser> KeySizeUser for T
where
    T::Inner: KeySizeUser,
{
    type KeySize = <T::Inner as KeySizeUser>::KeySize;
}

impl<T: InnerIvInit> KeyIvInit for T
where
    T::Inner: KeyInit,
{
    fn new(key: &Key<Self>, iv: &Iv<Self>) -> Self {
        T::inner_iv_init(T::Inner::new(key), iv)
    }
}

pub trait BlockCipherEncrypt: BlockSizeUser {}
pub trait BlockCipherDecrypt: BlockSizeUser {}

impl<T: BlockCipherDecrypt> BlockCipherDecrypt for &T {}

pub trait BlockModeEncrypt: BlockSizeUser {
    fn encrypt_block(&mut self, block: &mut Block<Self>);
}

pub trait BlockModeDecrypt: BlockSizeUser {
    fn decrypt_block(&mut self, block: &mut Block<Self>);
}

pub trait IvState: IvSizeUser {
    fn iv_state(&self) -> Iv<Self>;
}

#[derive(Debug)]
pub struct StreamCipherError;

pub struct InOutBuf<'i, 'o, T>(PhantomData<(&'i T, &'o T)>);

pub trait StreamCipher {
    fn check_remaining(&self, len: usize) -> Result<(), StreamCipherError>;
    fn unchecked_apply_keystream_inout(&mut self, buf: InOutBuf<'_, '_, u8>);
    fn unchecked_write_keystream(&mut self, buf: &mut [u8]);

    fn apply_keystream(&mut self, _: &mut [u8]) {
        unreachable!("types only")
    }
}

pub trait StreamCipherSeek {
    fn seek(&mut self, pos: u64);
    fn current_pos(&self) -> u64;
}
