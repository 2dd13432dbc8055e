//! Name-lists as peers send them: names of the tables, names that the Rust knows and we do not, and oddities.

use crate::rng::Rng;

pub const KEX: &[&str] = &[
    "mlkem768x25519-sha256",
    "curve25519-sha256",
    "curve25519-sha256@libssh.org",
    "diffie-hellman-group-exchange-sha256",
    "diffie-hellman-group18-sha512",
    "diffie-hellman-group17-sha512",
    "diffie-hellman-group16-sha512",
    "diffie-hellman-group15-sha512",
    "diffie-hellman-group14-sha256",
    "ext-info-c",
    "ext-info-s",
    "kex-strict-c-v00@openssh.com",
    "kex-strict-s-v00@openssh.com",
    "diffie-hellman-group14-sha1",
    "diffie-hellman-group1-sha1",
    "diffie-hellman-group-exchange-sha1",
    "ecdh-sha2-nistp256",
    "ecdh-sha2-nistp384",
    "ecdh-sha2-nistp521",
    "none",
    "sntrup761x25519-sha512@openssh.com",
    "foo",
];

pub const KEY: &[&str] = &[
    "ssh-ed25519",
    "ecdsa-sha2-nistp256",
    "ecdsa-sha2-nistp384",
    "ecdsa-sha2-nistp521",
    "rsa-sha2-512",
    "rsa-sha2-256",
    "ssh-rsa",
    "ssh-ed25519-cert-v01@openssh.com",
    "ecdsa-sha2-nistp256-cert-v01@openssh.com",
    "ecdsa-sha2-nistp384-cert-v01@openssh.com",
    "ecdsa-sha2-nistp521-cert-v01@openssh.com",
    "rsa-sha2-512-cert-v01@openssh.com",
    "rsa-sha2-256-cert-v01@openssh.com",
    "ssh-rsa-cert-v01@openssh.com",
    "ssh-dss",
    "sk-ssh-ed25519@openssh.com",
    "none",
];

pub const CIPHER: &[&str] = &[
    "clear",
    "none",
    "aes128-ctr",
    "aes192-ctr",
    "aes256-ctr",
    "aes128-gcm@openssh.com",
    "aes256-gcm@openssh.com",
    "aes128-cbc",
    "aes192-cbc",
    "aes256-cbc",
    "chacha20-poly1305@openssh.com",
    "3des-cbc",
    "aes128-gcm",
];

pub const MAC: &[&str] = &[
    "none",
    "hmac-sha2-512-etm@openssh.com",
    "hmac-sha2-256-etm@openssh.com",
    "hmac-sha2-512",
    "hmac-sha2-256",
    "hmac-sha1",
    "hmac-sha1-etm@openssh.com",
    "umac-64@openssh.com",
];

pub const COMPRESSION: &[&str] = &["none", "none", "none", "zlib", "zlib@openssh.com"];

/// the pool of each of KEXINIT's eight algorithm fields
pub const POOLS: [&[&str]; 8] = [KEX, KEY, CIPHER, CIPHER, MAC, MAC, COMPRESSION, COMPRESSION];

/// Texts that a string field may hold: empty, ASCII, UTF-8 of each length, and what is none.
pub const TEXTS: &[&[u8]] = &[
    b"",
    b"en",
    b"de-AT,en",
    b",",
    b"localhost",
    b"/run/x.sock",
    b"\0",
    "é".as_bytes(),
    "€".as_bytes(),
    "𝄞".as_bytes(),
    b"\x80",
    b"a\xFF",
    b"\xC0\x80",
    b"\xED\xA0\x80",
    b"\xF4\x90\x80\x80",
    b"\xE2\x82",
];

/// a list from a pool: names in any order, sometimes repeated; if `odd`, sometimes with what a list may not hold
pub fn list(r: &mut Rng, pool: &[&str], odd: bool) -> Vec<u8> {
    let most = if r.once_in(6) { 2 } else { 2 * pool.len() };
    let mut names: Vec<Vec<u8>> = (0..r.below(most + 1)).map(|_| r.of(pool).as_bytes().to_vec()).collect();
    if odd && r.once_in(12) {
        let odd: &[&[u8]] = &[b"", b"\xC3\xA9", b"\xFF", b"a\x80", b" none", b"none ", b"NONE", b"non", b"nonee", b"\0"];
        let at = r.below(names.len() + 1);
        names.insert(at, r.of(odd).to_vec());
    }
    let mut list = names.join(&b',');
    match r.below(40) {
        0..4 if !list.is_empty() => list.push(b','),
        4 if odd => list.extend(b",,"),
        5 if odd => list.insert(0, b','),
        6 if odd => list = b",".to_vec(),
        _ => {}
    }
    list
}
