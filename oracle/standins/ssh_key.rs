//! stand-in, not the oracle: the crate ssh_key, a key and a certificate as a kind and an identity.
//! It decides the key and certificate spellings (but the two RSA-SHA2 certificate ones that src/helpers.rs reads), so
//! they are never called compared with the Rust. Equal identity stands for equal public key data (document 01).

use std::fmt;

#[derive(Debug)]
pub enum Error {
    AlgorithmUnknown,
    AlgorithmUnsupported { algorithm: Algorithm },
    CertificateFieldInvalid(certificate::Field),
    Encoding(ssh_encoding::Error),
}

pub type Result<T> = core::result::Result<T, Error>;

impl From<ssh_encoding::Error> for Error {
    fn from(e: ssh_encoding::Error) -> Self {
        Error::Encoding(e)
    }
}

impl From<signature::Error> for Error {
    fn from(_: signature::Error) -> Self {
        Error::AlgorithmUnknown
    }
}

#[derive(Debug, Clone, Copy, PartialEq, Eq)]
pub enum EcdsaCurve {
    NistP256,
    NistP384,
    NistP521,
}

#[derive(Debug, Clone, Copy, PartialEq, Eq)]
pub enum HashAlg {
    Sha256,
    Sha512,
}

#[derive(Debug, Clone, PartialEq, Eq)]
pub enum Algorithm {
    Dsa,
    Ecdsa { curve: EcdsaCurve },
    Ed25519,
    Rsa { hash: Option<HashAlg> },
    SkEcdsaSha2NistP256,
    SkEd25519,
}

const CERTIFICATE: &str = "-cert-v01@openssh.com";

impl Algorithm {
    fn plain(name: &str) -> Option<Self> {
        [
            Algorithm::Ed25519,
            Algorithm::Ecdsa { curve: EcdsaCurve::NistP256 },
            Algorithm::Ecdsa { curve: EcdsaCurve::NistP384 },
            Algorithm::Ecdsa { curve: EcdsaCurve::NistP521 },
            Algorithm::Rsa { hash: None },
        ]
        .into_iter()
        .find(|a| a.as_ref() == name)
    }

    /// The RSA-SHA2 names are not read here: src/helpers.rs reads them before it asks.
    pub fn new_certificate(name: &str) -> Result<Self> {
        name.strip_suffix(CERTIFICATE).and_then(Self::plain).ok_or(Error::AlgorithmUnknown)
    }

    pub fn to_certificate_type(&self) -> String {
        format!("{self}{CERTIFICATE}")
    }

    pub fn is_rsa(&self) -> bool {
        matches!(self, Algorithm::Rsa { .. })
    }
}

impl AsRef<str> for Algorithm {
    fn as_ref(&self) -> &str {
        match self {
            Algorithm::Dsa => "ssh-dss",
            Algorithm::Ecdsa { curve: EcdsaCurve::NistP256 } => "ecdsa-sha2-nistp256",
            Algorithm::Ecdsa { curve: EcdsaCurve::NistP384 } => "ecdsa-sha2-nistp384",
            Algorithm::Ecdsa { curve: EcdsaCurve::NistP521 } => "ecdsa-sha2-nistp521",
            Algorithm::Ed25519 => "ssh-ed25519",
            Algorithm::Rsa { hash: None } => "ssh-rsa",
            Algorithm::Rsa { hash: Some(HashAlg::Sha256) } => "rsa-sha2-256",
            Algorithm::Rsa { hash: Some(HashAlg::Sha512) } => "rsa-sha2-512",
            Algorithm::SkEcdsaSha2NistP256 => "sk-ecdsa-sha2-nistp256@openssh.com",
            Algorithm::SkEd25519 => "sk-ssh-ed25519@openssh.com",
        }
    }
}

impl fmt::Display for Algorithm {
    fn fmt(&self, f: &mut fmt::Formatter<'_>) -> fmt::Result {
        f.write_str(self.as_ref())
    }
}

pub mod public {
    /// Public key data is its identity number.
    #[derive(Debug, Clone, PartialEq, Eq)]
    pub struct KeyData(pub u32);

    impl ssh_encoding::Decode for KeyData {
        type Error = super::Error;

        fn decode(_: &mut impl ssh_encoding::Reader) -> super::Result<Self> {
            Err(super::Error::AlgorithmUnknown)
        }
    }
}

pub mod private {
    #[derive(Debug, Clone)]
    pub enum KeypairData {
        Rsa(()),
        Other,
    }

    impl signature::Signer<super::Signature> for KeypairData {
        fn try_sign(&self, _: &[u8]) -> Result<super::Signature, signature::Error> {
            Err(signature::Error)
        }
    }
}

pub mod certificate {
    #[derive(Debug)]
    pub enum Field {
        SignatureKey,
    }
}

pub struct Signature;

impl ssh_encoding::Encode for Signature {
    fn encoded_len(&self) -> ssh_encoding::Result<usize> {
        Ok(0)
    }

    fn encode(&self, _: &mut impl ssh_encoding::Writer) -> ssh_encoding::Result<()> {
        Ok(())
    }
}

#[derive(Debug, Clone)]
pub struct PublicKey(public::KeyData);

impl PublicKey {
    pub fn new(data: public::KeyData, _comment: &str) -> Self {
        PublicKey(data)
    }

    pub fn key_data(&self) -> &public::KeyData {
        &self.0
    }
}

impl From<public::KeyData> for PublicKey {
    fn from(data: public::KeyData) -> Self {
        PublicKey(data)
    }
}

#[derive(Debug, Clone)]
pub struct PrivateKey {
    kind: Algorithm,
    public: PublicKey,
}

impl PrivateKey {
    pub fn stand_in(kind: Algorithm, identity: u32) -> Self {
        PrivateKey { kind, public: PublicKey(public::KeyData(identity)) }
    }

    pub fn algorithm(&self) -> Algorithm {
        self.kind.clone()
    }

    pub fn public_key(&self) -> &PublicKey {
        &self.public
    }

    pub fn key_data(&self) -> &private::KeypairData {
        &private::KeypairData::Other
    }
}

#[derive(Debug, Clone)]
pub struct Certificate {
    kind: Algorithm,
    data: public::KeyData,
}

impl Certificate {
    pub fn stand_in(kind: Algorithm, identity: u32) -> Self {
        Certificate { kind, data: public::KeyData(identity) }
    }

    pub fn algorithm(&self) -> Algorithm {
        self.kind.clone()
    }

    pub fn public_key(&self) -> &public::KeyData {
        &self.data
    }

    pub fn key_id(&self) -> &str {
        ""
    }
}
