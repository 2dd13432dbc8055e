//! Peers of another make: lists that differ from ours and from each other.

mod peer;

use harupesat::{CipherName, CompressionName, KexName, KeyKind, KeyName, MacName, Names, Tables};
use peer::{Peer, client, server};

const CHACHA20: CipherName = CipherName::CHACHA20_POLY1305;

#[test]
fn a_name_of_its_own_in_each_list() {
    let server = Tables::server()
        .kex(&[KexName::KEX_STRICT_S, KexName::DH_GROUP14_SHA256])
        .key(&[KeyName::ECDSA_SHA2_NISTP521, KeyName::ECDSA_SHA2_NISTP384])
        .cipher(&[CipherName::AES128_CTR, CipherName::AES256_CBC])
        .key_row(KeyKind::P521, 1)
        .certificate_row(KeyKind::P521, 1);
    let peer = Peer {
        kex: "kex-strict-c-v00@openssh.com,diffie-hellman-group14-sha256".into(),
        key: "ecdsa-sha2-nistp521-cert-v01@openssh.com".into(),
        cipher: ["aes256-cbc,aes128-ctr".into(), "3des-cbc".into()],
        mac: ["hmac-sha2-256-etm@openssh.com".into(), "hmac-sha1,hmac-sha2-512".into()],
        compression: ["zlib,none".into(), "none".into()],
        language: ["en".into(), "fr".into()],
        follows: 255,
    };
    let names = Names {
        kex: KexName::DH_GROUP14_SHA256,
        key: KeyName::ECDSA_SHA2_NISTP521,
        cipher: CipherName::AES256_CBC,
        client_mac: MacName::HMAC_SHA2_256_ETM,
        server_mac: MacName::HMAC_SHA2_512,
        client_compression: CompressionName::NONE,
        server_compression: CompressionName::NONE,
        host_key_is_certificate: true,
        ignore_guessed: true,
        strict_kex: true,
    };
    assert_eq!(server.read_kex(false, &peer.payload()), Ok(names));
}

#[test]
fn a_comma_at_the_end() {
    let plain = Peer::new(CHACHA20);
    let trailing = plain.clone().with_kex("curve25519-sha256,").with_key("ssh-ed25519,");
    assert_eq!(client(CHACHA20).read_kex(false, &trailing.payload()), client(CHACHA20).read_kex(false, &plain.payload()));
}

#[test]
fn no_shared_mac_where_none_is_needed() {
    let names = server(CHACHA20).read_kex(false, &Peer::new(CHACHA20).with_mac("hmac-sha1").payload()).unwrap();
    assert_eq!((names.client_mac, names.server_mac), (MacName::NONE, MacName::NONE));
}
