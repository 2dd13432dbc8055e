//! A peer's KEXINIT, put together by hand from RFC 4253 section 7.1, and the tables that document 01 tries it with.

// Each test file takes what it needs.
#![allow(dead_code)]

use harupesat::{CipherName, CompressionName, KexName, KeyKind, KeyName, MacName, Tables};

/// The lists as the peer sends them; where there are two, client to server and server to client.
#[derive(Clone, Debug)]
pub struct Peer {
    pub kex: String,
    pub key: String,
    pub cipher: [String; 2],
    pub mac: [String; 2],
    pub compression: [String; 2],
    pub language: [String; 2],
    pub follows: u8,
}

fn both(list: &str) -> [String; 2] {
    [list.into(), list.into()]
}

impl Peer {
    /// curve25519-sha256, ssh-ed25519, a cipher, hmac-sha2-256, none.
    pub fn new(cipher: CipherName) -> Peer {
        Peer {
            kex: "curve25519-sha256".into(),
            key: "ssh-ed25519".into(),
            cipher: both(cipher.spelling()),
            mac: both("hmac-sha2-256"),
            compression: both("none"),
            language: both(""),
            follows: 0,
        }
    }

    pub fn with_kex(mut self, list: &str) -> Peer {
        self.kex = list.into();
        self
    }

    pub fn with_key(mut self, list: &str) -> Peer {
        self.key = list.into();
        self
    }

    pub fn with_mac(mut self, list: &str) -> Peer {
        self.mac = both(list);
        self
    }

    pub fn with_compression(mut self, list: &str) -> Peer {
        self.compression = both(list);
        self
    }

    pub fn guessing(mut self) -> Peer {
        self.follows = 1;
        self
    }

    pub fn payload(&self) -> Vec<u8> {
        let lists =
            [std::slice::from_ref(&self.kex), std::slice::from_ref(&self.key), &self.cipher, &self.mac, &self.compression];
        let mut payload = b"\x14a peer's cookie.".to_vec();
        for list in lists.into_iter().flatten().chain(&self.language) {
            payload.extend(string(list.as_bytes()));
        }
        payload.push(self.follows);
        payload.extend([0; 4]);
        payload
    }
}

/// Which of the fields with these starts a byte stands in: what is missing, if the bytes end there.
pub fn field_at(starts: &[usize], byte: usize) -> usize {
    starts.iter().copied().filter(|start| *start <= byte).max().unwrap()
}

/// A string (RFC 4251 section 5): a big-endian length, and the bytes.
pub fn string(bytes: &[u8]) -> Vec<u8> {
    [&u32::try_from(bytes.len()).unwrap().to_be_bytes(), bytes].concat()
}

/// Document 01's lists hold no extension name.
fn plain(tables: Tables, cipher: CipherName) -> Tables {
    tables
        .kex_without_extensions(&[KexName::CURVE25519_SHA256])
        .key(&[KeyName::SSH_ED25519])
        .cipher(&[cipher])
        .mac(&[MacName::HMAC_SHA2_256])
        .compression(&[CompressionName::NONE])
}

/// A client with the lists of [`Peer::new`].
pub fn client(cipher: CipherName) -> Tables {
    plain(Tables::client(), cipher)
}

/// A server with the lists of [`Peer::new`] and an Ed25519 key.
pub fn server(cipher: CipherName) -> Tables {
    plain(Tables::server(), cipher).key_row(KeyKind::Ed25519, 7)
}
