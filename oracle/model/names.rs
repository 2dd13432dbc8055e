//! crates/names/specs: Tables, Spelled, Lookup

use crate::answer::{Out, guard};
use std::sync::LazyLock;

#[derive(Debug, Clone, Copy, PartialEq, Eq)]
pub enum Kind {
    Kex,
    Key,
    Certificate,
    Cipher,
    Mac,
    Compression,
}

const KEX: &[&str] = &[
    "mlkem768x25519-sha256",
    "curve25519-sha256",
    "curve25519-sha256@libssh.org",
    "diffie-hellman-group-exchange-sha256",
    "diffie-hellman-group18-sha512",
    "diffie-hellman-group17-sha512",
    "diffie-hellman-group16-sha512",
    "diffie-hellman-group15-sha512",
    "diffie-hellman-group14-sha256",
    "ext-info-c",
    "ext-info-s",
    "kex-strict-c-v00@openssh.com",
    "kex-strict-s-v00@openssh.com",
];

const KEY: &[&str] = &[
    "ssh-ed25519",
    "ecdsa-sha2-nistp256",
    "ecdsa-sha2-nistp384",
    "ecdsa-sha2-nistp521",
    "rsa-sha2-512",
    "rsa-sha2-256",
    "ssh-rsa",
];

const CIPHER: &[&str] = &[
    "clear",
    "none",
    "aes128-ctr",
    "aes192-ctr",
    "aes256-ctr",
    "aes128-gcm@openssh.com",
    "aes256-gcm@openssh.com",
    "aes128-cbc",
    "aes192-cbc",
    "aes256-cbc",
    "chacha20-poly1305@openssh.com",
];

const MAC: &[&str] =
    &["none", "hmac-sha2-512-etm@openssh.com", "hmac-sha2-256-etm@openssh.com", "hmac-sha2-512", "hmac-sha2-256"];

const COMPRESSION: &[&str] = &["none"];

/// "The certificate name is the key name followed by -cert-v01@openssh.com."
static CERTIFICATE: LazyLock<Vec<&'static str>> =
    LazyLock::new(|| KEY.iter().map(|n| &*format!("{n}-cert-v01@openssh.com").leak()).collect());

/// the names of a kind
pub fn names_of(k: Kind) -> &'static [&'static str] {
    match k {
        Kind::Kex => KEX,
        Kind::Key => KEY,
        Kind::Certificate => &CERTIFICATE,
        Kind::Cipher => CIPHER,
        Kind::Mac => MAC,
        Kind::Compression => COMPRESSION,
    }
}

pub fn count(k: Kind) -> usize {
    names_of(k).len()
}

/// "The ctr and cbc names need a MAC"
pub fn need_mac(n: u8) -> bool {
    CIPHER[n as usize].contains("ctr") || CIPHER[n as usize].contains("cbc")
}

/// "gcm and chacha20 have built-in integrity"
pub fn built_in(n: u8) -> bool {
    CIPHER[n as usize].contains("gcm") || CIPHER[n as usize].contains("chacha20")
}

fn flag(test: fn(u8) -> bool, n: u8) -> Out<bool> {
    guard(9, (n as usize) < CIPHER.len())?;
    Ok(test(n))
}

pub fn needs_mac(n: u8) -> Out<bool> {
    flag(need_mac, n)
}

pub fn built_in_integrity(n: u8) -> Out<bool> {
    flag(built_in, n)
}

/// a name's number in its kind
pub fn number_of(k: Kind, name: &[u8]) -> Option<u8> {
    names_of(k).iter().position(|m| m.as_bytes() == name).map(|n| n as u8)
}

/// the name of a number of a kind (a valid one)
pub fn spelled(k: Kind, n: u8) -> &'static [u8] {
    names_of(k)[n as usize].as_bytes()
}
