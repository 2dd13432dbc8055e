//! stand-in, not the oracle: russh's keys/mod.rs, for the names that the text uses of it.

pub mod key;

pub use ssh_key::{HashAlg, PrivateKey};

pub mod agent {
    #[derive(Debug)]
    pub struct AgentSessionBinding;
}

#[derive(Debug)]
pub struct Error;

impl From<ssh_key::Error> for Error {
    fn from(_: ssh_key::Error) -> Self {
        Error
    }
}
