//! Two ends, each with tables of its own, from KEXINIT over framed packets to what they settle on: equal names, or refusals
//! of equal number.

use harupesat::{
    CertificateName, CipherName, CompressionName, Counters, Frame, KEXINIT_ROOM, KexName, KeyKind, KeyName, MacName,
};
use harupesat::{Names, PACKET_ROOM, ReadRefusal, Refusal, Tables, read_packet, write_packet};

/// A side's first packet, as it would go through a socket.
fn first_packet(side: &Tables, cookie: &[u8; 16]) -> Vec<u8> {
    let mut payload = [0; KEXINIT_ROOM];
    let mut out = [0; KEXINIT_ROOM + PACKET_ROOM];
    let kexinit = side.write_kex(cookie, &mut payload).unwrap();
    write_packet(kexinit, Counters::default(), &mut out).unwrap().packet.to_vec()
}

/// What a side settles on when the peer's packet has come, with bytes of the next one behind it.
fn settled(side: &Tables, packet: &[u8]) -> Result<Names, ReadRefusal> {
    let stream = [packet, b"next"].concat();
    for have in 0..packet.len() {
        assert!(
            matches!(read_packet(&stream[..have], Counters::default()), Ok(Frame::Need(n)) if have < n && n <= packet.len())
        );
    }
    let Ok(Frame::Packet(got)) = read_packet(&stream, Counters::default()) else { panic!("a whole packet is there") };
    assert_eq!(&stream[got.taken..], b"next");
    assert_eq!(got.counters, Counters { seqn: 1, bytes: got.payload.len() as u64 });
    side.read_kex(false, got.payload)
}

fn exchange(client: &Tables, server: &Tables) -> (Result<Names, ReadRefusal>, Result<Names, ReadRefusal>) {
    let (from_client, from_server) = (first_packet(client, &[1; 16]), first_packet(server, &[2; 16]));
    (settled(client, &from_server), settled(server, &from_client))
}

fn default_server() -> Tables {
    Tables::server().key_row(KeyKind::Ed25519, 1)
}

#[test]
fn default_tables() {
    let (client, server) = exchange(&Tables::client(), &default_server());
    let names = Names {
        kex: KexName::MLKEM768X25519_SHA256,
        key: KeyName::SSH_ED25519,
        cipher: CipherName::CHACHA20_POLY1305,
        client_mac: MacName::HMAC_SHA2_512_ETM,
        server_mac: MacName::HMAC_SHA2_512_ETM,
        client_compression: CompressionName::NONE,
        server_compression: CompressionName::NONE,
        host_key_is_certificate: false,
        ignore_guessed: false,
        strict_kex: true,
    };
    assert_eq!(client, Ok(names));
    assert_eq!(server, Ok(names));
    assert_eq!(names.host_key(), "ssh-ed25519");
}

#[test]
fn the_client_s_order_decides() {
    let client = Tables::client()
        .kex(&[KexName::DH_GROUP14_SHA256, KexName::CURVE25519_SHA256])
        .cipher(&[CipherName::CLEAR, CipherName::AES128_CTR, CipherName::AES256_CTR])
        .mac(&[MacName::HMAC_SHA2_256, MacName::HMAC_SHA2_512]);
    let (client, server) = exchange(&client, &default_server());
    let names = client.unwrap();
    assert_eq!(server, Ok(names));
    assert_eq!(names.kex, KexName::DH_GROUP14_SHA256);
    assert_eq!(names.cipher, CipherName::AES128_CTR);
    assert_eq!(names.client_mac, MacName::HMAC_SHA2_256);
    assert!(names.strict_kex);
}

#[test]
fn a_certificate() {
    let client = Tables::client().certificate(&[CertificateName::RSA_SHA2_256, CertificateName::SSH_ED25519]);
    let server =
        default_server().key_row(KeyKind::Rsa, 9).certificate_row(KeyKind::Rsa, 9).certificate_row(KeyKind::P384, 8);
    let (client, server) = exchange(&client, &server);
    let names = client.unwrap();
    assert_eq!(server, Ok(names));
    assert_eq!((names.key, names.host_key_is_certificate), (KeyName::RSA_SHA2_256, true));
    assert_eq!(names.host_key(), "rsa-sha2-256-cert-v01@openssh.com");
}

/// The numbers are equal; the offsets are those of the peer's list, which each end has in another payload.
#[test]
fn both_refuse_with_one_number() {
    let client = Tables::client;
    for (client, refusal, read_by_client, read_by_server) in [
        (client().kex(&[]), Refusal::NoKex, 17, 17),
        (client().key(&[KeyName::SSH_RSA]), Refusal::NoKey, 316, 316),
        (client().cipher(&[CipherName::AES256_CBC]), Refusal::NoCipher, 331, 425),
        (client().cipher(&[CipherName::AES256_CTR]).mac(&[MacName::NONE]), Refusal::NoMac, 509, 453),
        (client().compression(&[]), Refusal::NoCompression, 691, 785),
    ] {
        let refused = (Err(refusal.at(read_by_client)), Err(refusal.at(read_by_server)));
        assert_eq!(exchange(&client, &default_server()), refused);
    }
}

#[test]
fn a_rekey_stays_strict() {
    let plain = [KexName::CURVE25519_SHA256];
    let mut payload = [0; KEXINIT_ROOM];
    let kexinit = Tables::client().kex_without_extensions(&plain).write_kex(&[3; 16], &mut payload).unwrap();
    let server = default_server().kex_without_extensions(&plain);
    assert!(!server.read_kex(false, kexinit).unwrap().strict_kex);
    assert!(server.read_kex(true, kexinit).unwrap().strict_kex);
}
