use std::fmt::Debug;
use std::hash::Hash;

/// Whose table a name's number counts in. Names of two kinds are two types.
pub trait Kind: sealed::Sealed + Copy + Eq + Hash + Debug + 'static {}

pub(crate) mod sealed {
    pub trait Sealed {
        /// The header's number of the kind.
        const NUMBER: u8;
        const TYPE: &'static str;
    }
}

macro_rules! kinds {
    ($($(#[$doc:meta])* $kind:ident $number:literal $name:literal)*) => {$(
        $(#[$doc])*
        #[derive(Clone, Copy, Debug, PartialEq, Eq, Hash)]
        pub enum $kind {}

        impl sealed::Sealed for $kind {
            const NUMBER: u8 = $number;
            const TYPE: &'static str = $name;
        }

        impl Kind for $kind {}
    )*};
}

kinds! {
    /// Key exchange, and the four extension names.
    Kex 0 "KexName"
    /// Host keys.
    Key 1 "KeyName"
    /// Certificates of host keys: a certificate's number is its key's.
    Certificate 2 "CertificateName"
    /// Ciphers.
    Cipher 3 "CipherName"
    /// MACs.
    Mac 4 "MacName"
    /// Compression.
    Compression 5 "CompressionName"
}
