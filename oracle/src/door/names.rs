//! Names and their numbers (document 01): a name's number is its place.

use ssh_key::{Algorithm, EcdsaCurve, HashAlg};

use crate::{cipher, compression, kex, mac};

pub const KEX: [kex::Name; 13] = [
    kex::MLKEM768X25519_SHA256,
    kex::CURVE25519,
    kex::CURVE25519_PRE_RFC_8731,
    kex::DH_GEX_SHA256,
    kex::DH_G18_SHA512,
    kex::DH_G17_SHA512,
    kex::DH_G16_SHA512,
    kex::DH_G15_SHA512,
    kex::DH_G14_SHA256,
    kex::EXTENSION_SUPPORT_AS_CLIENT,
    kex::EXTENSION_SUPPORT_AS_SERVER,
    kex::EXTENSION_OPENSSH_STRICT_KEX_AS_CLIENT,
    kex::EXTENSION_OPENSSH_STRICT_KEX_AS_SERVER,
];

pub const KEY: [Algorithm; 7] = [
    Algorithm::Ed25519,
    Algorithm::Ecdsa { curve: EcdsaCurve::NistP256 },
    Algorithm::Ecdsa { curve: EcdsaCurve::NistP384 },
    Algorithm::Ecdsa { curve: EcdsaCurve::NistP521 },
    Algorithm::Rsa { hash: Some(HashAlg::Sha512) },
    Algorithm::Rsa { hash: Some(HashAlg::Sha256) },
    Algorithm::Rsa { hash: None },
];

/// Ed25519, P256, P384, P521, RSA: a key itself has no hash
pub const KIND: [Algorithm; 5] = [
    Algorithm::Ed25519,
    Algorithm::Ecdsa { curve: EcdsaCurve::NistP256 },
    Algorithm::Ecdsa { curve: EcdsaCurve::NistP384 },
    Algorithm::Ecdsa { curve: EcdsaCurve::NistP521 },
    Algorithm::Rsa { hash: None },
];

pub const CIPHER: [cipher::Name; 11] = [
    cipher::CLEAR,
    cipher::NONE,
    cipher::AES_128_CTR,
    cipher::AES_192_CTR,
    cipher::AES_256_CTR,
    cipher::AES_128_GCM,
    cipher::AES_256_GCM,
    cipher::AES_128_CBC,
    cipher::AES_192_CBC,
    cipher::AES_256_CBC,
    cipher::CHACHA20_POLY1305,
];

pub const MAC: [mac::Name; 5] =
    [mac::NONE, mac::HMAC_SHA512_ETM, mac::HMAC_SHA256_ETM, mac::HMAC_SHA512, mac::HMAC_SHA256];

pub const COMPRESSION: [compression::Name; 1] = [compression::NONE];

pub fn named<T: Clone>(table: &[T], numbers: &[u8]) -> Vec<T> {
    numbers.iter().map(|&n| table[n as usize].clone()).collect()
}

pub fn place<T: PartialEq>(table: &[T], entry: &T) -> u8 {
    table.iter().position(|e| e == entry).expect("a chosen name is one of the table's") as u8
}

pub fn compression_number(c: &compression::Compression) -> u8 {
    match c {
        compression::Compression::None => 0,
    }
}

/// A name as the text spells it, by document 01's kind and number; none where a stand-in spells it (keys and
/// certificates) or there is no such number.
pub fn spelling(kind: u8, number: u8) -> Option<&'static str> {
    let n = number as usize;
    match kind {
        0 => KEX.get(n).map(|name| name.as_ref()),
        3 => CIPHER.get(n).map(|name| name.as_ref()),
        4 => MAC.get(n).map(|name| name.as_ref()),
        5 => COMPRESSION.get(n).map(|name| name.as_ref()),
        _ => None,
    }
}

/// `Cipher::needs_mac`; none for gcm and chacha20, which are stand-ins, and where there is no such number
pub fn needs_mac(number: u8) -> Option<bool> {
    let name = CIPHER.get(number as usize)?;
    let standing_in = [cipher::AES_128_GCM, cipher::AES_256_GCM, cipher::CHACHA20_POLY1305];
    if standing_in.contains(name) { None } else { cipher::CIPHERS.get(name).map(|c| c.needs_mac()) }
}
