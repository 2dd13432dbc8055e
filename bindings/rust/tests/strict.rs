//! Strict key exchange: which extension names a side writes, and what it settles on with and without its strict name.

mod peer;

use harupesat::{CipherName, KEXINIT_ROOM, KexName, KeyKind, Refusal, Tables};
use peer::Peer;

const PLAIN: [KexName; 2] = [KexName::DH_GROUP14_SHA256, KexName::CURVE25519_SHA256];
const PLAIN_WRITTEN: &str = "diffie-hellman-group14-sha256,curve25519-sha256";
const CLIENT_S: &str = "ext-info-c,kex-strict-c-v00@openssh.com";
const SERVER_S: &str = "ext-info-s,kex-strict-s-v00@openssh.com";

fn server() -> Tables {
    Tables::server().key_row(KeyKind::Ed25519, 1)
}

/// The kex list of the KEXINIT that a side writes: the string behind message number and cookie.
fn written(side: &Tables) -> Result<String, Refusal> {
    let mut out = [0; KEXINIT_ROOM];
    let (len, rest) = side.write_kex(&[4; 16], &mut out)?[17..].split_first_chunk().unwrap();
    let len = usize::try_from(u32::from_be_bytes(*len)).unwrap();
    Ok(String::from_utf8(rest[..len].to_vec()).unwrap())
}

/// Whether a side settles on strict key exchange with a peer that sends this kex list.
fn strict(side: &Tables, list: &str) -> bool {
    let peer = Peer::new(CipherName::CHACHA20_POLY1305).with_kex(list);
    side.read_kex(false, &peer.payload()).unwrap().strict_kex
}

#[test]
fn what_a_list_lacks_stands_behind_it() {
    assert_eq!(written(&Tables::client().kex(&PLAIN)), Ok(format!("{PLAIN_WRITTEN},{CLIENT_S}")));
    assert_eq!(written(&server().kex(&PLAIN)), Ok(format!("{PLAIN_WRITTEN},{SERVER_S}")));
    assert_eq!(written(&Tables::client().kex(&[])), Ok(CLIENT_S.into()));
    assert_eq!(written(&server().kex(&[])), Ok(SERVER_S.into()));
}

#[test]
fn the_opt_out_lends_exactly_the_list() {
    assert_eq!(written(&Tables::client().kex_without_extensions(&PLAIN)), Ok(PLAIN_WRITTEN.into()));
    assert_eq!(written(&server().kex_without_extensions(&PLAIN)), Ok(PLAIN_WRITTEN.into()));
    let strict = [KexName::KEX_STRICT_C, KexName::CURVE25519_SHA256];
    let client = Tables::client().kex_without_extensions(&strict);
    assert_eq!(written(&client), Ok("kex-strict-c-v00@openssh.com,curve25519-sha256".into()));
}

#[test]
fn a_list_that_holds_them_is_unchanged() {
    let list = [
        KexName::KEX_STRICT_S,
        KexName::KEX_STRICT_C,
        KexName::CURVE25519_SHA256,
        KexName::EXT_INFO_C,
        KexName::EXT_INFO_S,
    ];
    assert_eq!(server().kex(&list), server().kex_without_extensions(&list));
    assert_eq!(Tables::client().kex(&list), Tables::client().kex_without_extensions(&list));
    assert_eq!(server().kex(&KexName::defaults()), server());
    assert_eq!(Tables::client().kex(&KexName::defaults()), Tables::client());
}

#[test]
fn only_what_is_lacking_is_added() {
    let client = Tables::client().kex(&[KexName::KEX_STRICT_C, KexName::CURVE25519_SHA256]);
    assert_eq!(written(&client), Ok("kex-strict-c-v00@openssh.com,curve25519-sha256,ext-info-c".into()));
    let server = server().kex(&[KexName::EXT_INFO_S, KexName::CURVE25519_SHA256]);
    assert_eq!(written(&server), Ok("ext-info-s,curve25519-sha256,kex-strict-s-v00@openssh.com".into()));
}

/// The other side's names do not stand in for a side's own.
#[test]
fn the_other_side_s_names_count_for_nothing() {
    let list = [KexName::CURVE25519_SHA256, KexName::EXT_INFO_S, KexName::KEX_STRICT_S];
    assert_eq!(written(&Tables::client().kex(&list)), Ok(format!("curve25519-sha256,{CLIENT_S}")));
    let list = [KexName::CURVE25519_SHA256, KexName::EXT_INFO_C, KexName::KEX_STRICT_C];
    assert_eq!(written(&server().kex(&list)), Ok(format!("curve25519-sha256,{SERVER_S}")));
}

/// 16 entries with what is added: a name more is refused, and not one of them dropped.
#[test]
fn a_full_list() {
    for (side, own) in [
        (Tables::client as fn() -> Tables, [KexName::EXT_INFO_C, KexName::KEX_STRICT_C]),
        (server, [KexName::EXT_INFO_S, KexName::KEX_STRICT_S]),
    ] {
        let names = |n| vec![KexName::CURVE25519_SHA256; n];
        assert_eq!(written(&side().kex(&names(14))).unwrap().split(',').count(), 16);
        assert_eq!(written(&side().kex(&names(15))), Err(Refusal::BadTable));
        assert_eq!(written(&side().kex(&names(16))), Err(Refusal::BadTable));
        let whole = [&names(14)[..], &own].concat();
        assert_eq!(side().kex(&whole), side().kex_without_extensions(&whole));
        assert_eq!(written(&side().kex(&whole)).unwrap().split(',').count(), 16);
        assert_eq!(written(&side().kex_without_extensions(&names(16))).unwrap().split(',').count(), 16);
    }
}

#[test]
fn strict_where_both_ends_list_their_names() {
    for side in [Tables::client(), Tables::client().kex(&PLAIN)] {
        assert!(strict(&side, &format!("{PLAIN_WRITTEN},{SERVER_S}")));
        assert!(!strict(&side, &format!("{PLAIN_WRITTEN},{CLIENT_S}")));
        assert!(!strict(&side, PLAIN_WRITTEN));
    }
    for side in [server(), server().kex(&PLAIN)] {
        assert!(strict(&side, &format!("{PLAIN_WRITTEN},{CLIENT_S}")));
        assert!(!strict(&side, &format!("{PLAIN_WRITTEN},{SERVER_S}")));
        assert!(!strict(&side, PLAIN_WRITTEN));
    }
}

#[test]
fn without_its_name_a_side_is_not_strict() {
    let everything = format!("{PLAIN_WRITTEN},{CLIENT_S},{SERVER_S}");
    assert!(!strict(&Tables::client().kex_without_extensions(&PLAIN), &everything));
    assert!(!strict(&server().kex_without_extensions(&PLAIN), &everything));
}
