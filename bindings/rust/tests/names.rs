//! Names: numbers, spellings, parsing, default lists. The constants are compared in src/constants.rs.

use harupesat::{
    CertificateName, CipherName, CompressionName, KexName, KeyName, Kind, MacName, Name, Refusal, UnknownName,
};

fn both_ways<K: Kind>(count: u8) {
    let all: Vec<Name<K>> = Name::all().collect();
    assert_eq!(all.iter().map(|name| name.number()).collect::<Vec<_>>(), (0..count).collect::<Vec<_>>());
    for name in all {
        assert_eq!(name.spelling().parse(), Ok(name));
        assert_eq!(Name::from_number(name.number()), Ok(name));
    }
    assert_eq!(Name::<K>::from_number(count), Err(Refusal::BadTable));
    assert_eq!(Name::<K>::from_number(255), Err(Refusal::BadTable));
    assert_eq!("".parse::<Name<K>>(), Err(UnknownName));
    assert_eq!("ecdh-sha2-nistp256".parse::<Name<K>>(), Err(UnknownName));
}

#[test]
fn numbers_and_spellings() {
    both_ways::<harupesat::Kex>(13);
    both_ways::<harupesat::Key>(7);
    both_ways::<harupesat::Certificate>(7);
    both_ways::<harupesat::Cipher>(11);
    both_ways::<harupesat::Mac>(5);
    both_ways::<harupesat::Compression>(1);
}

#[test]
fn default_lists() {
    assert_eq!(KexName::defaults(), KexName::all().collect::<Vec<_>>());
    assert_eq!(KeyName::defaults(), KeyName::all().collect::<Vec<_>>());
    assert_eq!(CertificateName::defaults(), []);
    let ciphers = [
        CipherName::CHACHA20_POLY1305,
        CipherName::AES256_GCM,
        CipherName::AES256_CTR,
        CipherName::AES192_CTR,
        CipherName::AES128_CTR,
    ];
    assert_eq!(CipherName::defaults(), ciphers);
    let macs = [MacName::HMAC_SHA2_512_ETM, MacName::HMAC_SHA2_256_ETM, MacName::HMAC_SHA2_512, MacName::HMAC_SHA2_256];
    assert_eq!(MacName::defaults(), macs);
    assert_eq!(CompressionName::defaults(), [CompressionName::NONE]);
}

#[test]
fn ciphers() {
    for cipher in CipherName::all() {
        let name = cipher.spelling();
        assert_eq!(cipher.needs_mac(), name.contains("-ctr") || name.contains("-cbc"), "{name}");
        assert_eq!(cipher.built_in_integrity(), name.contains("-gcm") || name.contains("chacha20"), "{name}");
    }
}

#[test]
fn certificates_and_keys() {
    for key in KeyName::all() {
        assert_eq!(key.certificate().spelling(), format!("{key}-cert-v01@openssh.com"));
        assert_eq!(key.certificate().key(), key);
    }
}

#[test]
fn shown() {
    let name = KexName::CURVE25519_SHA256;
    assert_eq!(format!("[{name:>20}] {name:?}"), r#"[   curve25519-sha256] KexName("curve25519-sha256")"#);
    assert_eq!(UnknownName.to_string(), "no such name");
    assert!(matches!(name, KexName::CURVE25519_SHA256));
}
