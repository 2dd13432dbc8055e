//! stand-in, not the oracle: the crates generic_array and typenum, types only.

use std::marker::PhantomData;
use std::ops::{Deref, DerefMut};

pub mod typenum {
    pub trait Unsigned {
        fn to_usize() -> usize;
    }

    pub struct Of<const N: usize>;

    impl<const N: usize> Unsigned for Of<N> {
        fn to_usize() -> usize {
            N
        }
    }

    pub type U16 = Of<16>;
    pub type U20 = Of<20>;
    pub type U24 = Of<24>;
    pub type U32 = Of<32>;
    pub type U64 = Of<64>;
}

pub trait ArrayLength: typenum::Unsigned + Send + Sync + 'static {}

impl<const N: usize> ArrayLength for typenum::Of<N> {}

pub struct GenericArray<T, N>(Vec<T>, PhantomData<N>);

impl<N: ArrayLength> Default for GenericArray<u8, N> {
    fn default() -> Self {
        GenericArray(vec![0; N::to_usize()], PhantomData)
    }
}

impl<T: Clone, N> Clone for GenericArray<T, N> {
    fn clone(&self) -> Self {
        GenericArray(self.0.clone(), PhantomData)
    }
}

impl<T, N> Deref for GenericArray<T, N> {
    type Target = [T];

    fn deref(&self) -> &[T] {
        &self.0
    }
}

impl<T, N> DerefMut for GenericArray<T, N> {
    fn deref_mut(&mut self) -> &mut [T] {
        &mut self.0
    }
}

impl<'a, N> TryFrom<&'a [u8]> for &'a GenericArray<u8, N> {
    type Error = ();

    fn try_from(_: &'a [u8]) -> Result<Self, ()> {
        Err(())
    }
}

impl<'a, N> TryFrom<&'a mut [u8]> for &'a mut GenericArray<u8, N> {
    type Error = ();

    fn try_from(_: &'a mut [u8]) -> Result<Self, ()> {
        Err(())
    }
}
