use crate::kind::Kind;
use crate::name::{CertificateName, CipherName, CompressionName, KexName, KeyName, MacName, Name};

/// Which end of the connection.
#[derive(Clone, Copy, Debug, PartialEq, Eq, Hash)]
pub enum Side {
    /// The end that opened the connection.
    Client,
    /// The end that was called.
    Server,
}

impl Side {
    /// The extension names that this side writes.
    fn extensions(self) -> [KexName; 2] {
        match self {
            Side::Client => [KexName::EXT_INFO_C, KexName::KEX_STRICT_C],
            Side::Server => [KexName::EXT_INFO_S, KexName::KEX_STRICT_S],
        }
    }
}

/// The kind of a key row or a certificate row.
#[derive(Clone, Copy, Debug, PartialEq, Eq, Hash)]
#[repr(u8)]
pub enum KeyKind {
    /// Ed25519
    Ed25519 = 0,
    /// ECDSA over NIST P-256
    P256 = 1,
    /// ECDSA over NIST P-384
    P384 = 2,
    /// ECDSA over NIST P-521
    P521 = 3,
    /// RSA: every RSA name goes with such a key.
    Rsa = 4,
}

/// A side's tables: six preference lists, best first, and a server's keys and certificates.
///
/// They are judged when they are used ([`Tables::write_kex`], [`Tables::read_kex`]): a list over 16 entries, more than 8
/// rows in a table, two rows of equal identity but different kind, and a client with rows are refused with
/// [`BadTable`](crate::Refusal::BadTable). Names and kinds have types of their own here, so no number is outside its table.
///
/// ```
/// use harupesat::{CipherName, KeyKind, Tables};
///
/// let server = Tables::server()
///     .cipher(&[CipherName::CHACHA20_POLY1305, "aes256-gcm@openssh.com".parse()?])
///     .key_row(KeyKind::Ed25519, 1);
/// # Ok::<(), harupesat::UnknownName>(())
/// ```
#[derive(Clone, Debug, PartialEq, Eq)]
#[must_use]
pub struct Tables {
    pub(crate) side: Side,
    pub(crate) kex: Vec<u8>,
    pub(crate) key: Vec<u8>,
    pub(crate) certificate: Vec<u8>,
    pub(crate) cipher: Vec<u8>,
    pub(crate) mac: Vec<u8>,
    pub(crate) compression: Vec<u8>,
    pub(crate) key_kinds: Vec<u8>,
    pub(crate) key_ids: Vec<u32>,
    pub(crate) cert_kinds: Vec<u8>,
    pub(crate) cert_ids: Vec<u32>,
}

impl Tables {
    /// A client with the default lists.
    pub fn client() -> Tables {
        Tables::with_defaults(Side::Client)
    }

    /// A server with the default lists and no key yet: see [`Tables::key_row`].
    pub fn server() -> Tables {
        Tables::with_defaults(Side::Server)
    }

    fn with_defaults(side: Side) -> Tables {
        Tables {
            side,
            kex: numbers(&KexName::defaults()),
            key: numbers(&KeyName::defaults()),
            certificate: numbers(&CertificateName::defaults()),
            cipher: numbers(&CipherName::defaults()),
            mac: numbers(&MacName::defaults()),
            compression: numbers(&CompressionName::defaults()),
            key_kinds: Vec::new(),
            key_ids: Vec::new(),
            cert_kinds: Vec::new(),
            cert_ids: Vec::new(),
        }
    }

    /// Which end these tables are of.
    pub fn side(&self) -> Side {
        self.side
    }

    /// With these kex names in this order, and behind them this side's extension names, as far as the list lacks them:
    /// strict key exchange goes on being offered. The other side's extension names may be listed, and are not written.
    ///
    /// What is added counts for the limit of 16 entries: a list that has no room for it is refused, as any longer one is,
    /// with [`BadTable`](crate::Refusal::BadTable), and nothing is left out of it.
    pub fn kex(mut self, list: &[KexName]) -> Tables {
        let lacking = self.side.extensions().into_iter().filter(|name| !list.contains(name));
        self.kex = list.iter().copied().chain(lacking).map(Name::number).collect();
        self
    }

    /// With exactly these kex names: no extension name is added to them.
    ///
    /// A list that does not itself hold this side's strict name ([`KexName::KEX_STRICT_C`] of a client,
    /// [`KexName::KEX_STRICT_S`] of a server) gives up strict key exchange, whatever the peer lists. Somebody between the
    /// two ends can then take away the first packets under the new keys unnoticed (Terrapin, CVE-2023-48795).
    pub fn kex_without_extensions(mut self, list: &[KexName]) -> Tables {
        self.kex = numbers(list);
        self
    }

    /// With these host key names. A server writes those of a kind that it has a key of.
    pub fn key(mut self, list: &[KeyName]) -> Tables {
        self.key = numbers(list);
        self
    }

    /// With these host certificate names, which a client writes before its key names. A server does not use them: its
    /// certificate names come of its rows.
    pub fn certificate(mut self, list: &[CertificateName]) -> Tables {
        self.certificate = numbers(list);
        self
    }

    /// With these ciphers.
    pub fn cipher(mut self, list: &[CipherName]) -> Tables {
        self.cipher = numbers(list);
        self
    }

    /// With these MACs.
    pub fn mac(mut self, list: &[MacName]) -> Tables {
        self.mac = numbers(list);
        self
    }

    /// With these compressions.
    pub fn compression(mut self, list: &[CompressionName]) -> Tables {
        self.compression = numbers(list);
        self
    }

    /// With one host key more. Equal identity stands for equal public key data; the caller gives out the numbers.
    pub fn key_row(mut self, kind: KeyKind, identity: u32) -> Tables {
        self.key_kinds.push(kind as u8);
        self.key_ids.push(identity);
        self
    }

    /// With one host certificate more. It is offered where a key row has the same identity.
    pub fn certificate_row(mut self, kind: KeyKind, identity: u32) -> Tables {
        self.cert_kinds.push(kind as u8);
        self.cert_ids.push(identity);
        self
    }
}

fn numbers<K: Kind>(list: &[Name<K>]) -> Vec<u8> {
    list.iter().map(|name| name.number()).collect()
}
