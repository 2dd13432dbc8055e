//! stand-in, not the oracle: the crate root, for russh's lib_inner.rs, which the folder of the text does not hold.
//! `Error`, `AlgorithmKind` and `push_packet!` are written here from their uses in the text.

use std::fmt::{Debug, Formatter};

/// The Rust's macro puts a length in front; only the bytes inside it are asked for.
macro_rules! push_packet {
    ($buffer:expr, $x:expr) => {
        $x
    };
}

pub mod cipher;
pub mod compression;
pub mod door;
pub mod helpers;
pub mod kex;
pub mod keys;
pub mod mac;
pub mod msg;
pub mod negotiation;
pub mod parsing;
pub mod sshbuffer;

pub mod client {
    pub struct GexParams;
}

pub mod server {
    pub struct Config {
        pub keys: Vec<ssh_key::PrivateKey>,
        pub certificates: Vec<ssh_key::Certificate>,
    }
}

pub mod session {
    pub struct Exchange;

    #[derive(Debug)]
    pub struct NewKeys;
}

pub(crate) use helpers::map_err;

#[derive(Debug, Clone, Copy, PartialEq, Eq)]
pub enum AlgorithmKind {
    Kex,
    Key,
    Cipher,
    Compression,
    Mac,
}

#[derive(Debug)]
pub enum Error {
    Inconsistent,
    IndexOutOfBounds,
    KexInit,
    NoCommonAlgo { kind: AlgorithmKind, ours: Vec<String>, theirs: Vec<String> },
    PacketAuth,
    PacketSize(usize),
    StrictKeyExchangeViolation,
    UnknownAlgo,
    Encoding(ssh_encoding::Error),
    Io(std::io::Error),
}

impl From<ssh_encoding::Error> for Error {
    fn from(e: ssh_encoding::Error) -> Self {
        Error::Encoding(e)
    }
}

impl From<std::io::Error> for Error {
    fn from(e: std::io::Error) -> Self {
        Error::Io(e)
    }
}

pub(crate) fn strict_kex_violation(_: u8, _: usize) -> Error {
    Error::StrictKeyExchangeViolation
}

#[derive(Debug, Default)]
pub struct CryptoVec(Vec<u8>);

impl CryptoVec {
    pub fn new() -> Self {
        CryptoVec(Vec::new())
    }

    pub fn clear(&mut self) {
        self.0.clear();
    }

    pub fn extend(&mut self, bytes: &[u8]) {
        self.0.extend_from_slice(bytes);
    }

    pub fn push(&mut self, byte: u8) {
        self.0.push(byte);
    }

    pub fn resize(&mut self, len: usize) {
        self.0.resize(len, 0);
    }
}

impl std::ops::Deref for CryptoVec {
    type Target = [u8];

    fn deref(&self) -> &[u8] {
        &self.0
    }
}

impl AsRef<[u8]> for CryptoVec {
    fn as_ref(&self) -> &[u8] {
        &self.0
    }
}

impl ssh_encoding::Writer for CryptoVec {
    fn write(&mut self, bytes: &[u8]) -> ssh_encoding::Result<()> {
        self.0.extend_from_slice(bytes);
        Ok(())
    }
}
