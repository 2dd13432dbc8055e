//! crates/judging/specs: Tables; crates/filters/specs: Picked; crates/preferred/specs: Own

use crate::names::{Kind, count, spelled};
use crate::wire::Name;
use plain::{Side, Tables};

const MOST_ENTRIES: usize = 16;
const MOST_ROWS: usize = 8;
const KINDS: usize = 5;

fn below(count: usize, ns: &[u8]) -> bool {
    ns.iter().all(|&n| (n as usize) < count)
}

fn good_list(k: Kind, ns: &[u8]) -> bool {
    ns.len() <= MOST_ENTRIES && below(count(k), ns)
}

fn good_row_table(ks: &[u8], ids: &[u32]) -> bool {
    ks.len() == ids.len() && ks.len() <= MOST_ROWS && below(KINDS, ks)
}

fn each_key_row(f: impl Fn(u8, u32) -> bool, ks: &[u8], ids: &[u32]) -> bool {
    ks.iter().zip(ids).all(|(&k, &i)| f(k, i))
}

/// no row of the second table has the identity of this row but another kind
fn agrees(k: u8, id: u32, ks: &[u8], ids: &[u32]) -> bool {
    each_key_row(|l, i| i != id || l == k, ks, ids)
}

fn consistent(ks: &[u8], ids: &[u32], ks2: &[u8], ids2: &[u32]) -> bool {
    each_key_row(|k, i| agrees(k, i, ks2, ids2), ks, ids)
}

/// what is not refused with 9
pub fn valid(t: &Tables) -> bool {
    good_list(Kind::Kex, &t.kex)
        && good_list(Kind::Key, &t.key)
        && good_list(Kind::Certificate, &t.certificate)
        && good_list(Kind::Cipher, &t.cipher)
        && good_list(Kind::Mac, &t.mac)
        && good_list(Kind::Compression, &t.compression)
        && good_row_table(&t.key_kinds, &t.key_ids)
        && good_row_table(&t.cert_kinds, &t.cert_ids)
        && consistent(&t.key_kinds, &t.key_ids, &t.key_kinds, &t.key_ids)
        && consistent(&t.key_kinds, &t.key_ids, &t.cert_kinds, &t.cert_ids)
        && consistent(&t.cert_kinds, &t.cert_ids, &t.cert_kinds, &t.cert_ids)
        && (t.side == Side::Server || t.key_kinds.is_empty() && t.cert_kinds.is_empty())
}

fn extensions(side: Side) -> [u8; 2] {
    match side {
        Side::Client => [9, 11],
        Side::Server => [10, 12],
    }
}

pub fn strict_name(side: Side) -> u8 {
    extensions(side)[1]
}

fn without(dropped: &[u8], ns: &[u8]) -> Vec<u8> {
    ns.iter().copied().filter(|n| !dropped.contains(n)).collect()
}

fn names(k: Kind, ns: &[u8]) -> Vec<Name<'static>> {
    ns.iter().map(|&n| spelled(k, n)).collect()
}

/// "A server's kex list drops ext-info-c and kex-strict-c; a client's drops the -s pair."
pub fn written_kex(t: &Tables) -> Vec<Name<'static>> {
    names(Kind::Kex, &without(&extensions(t.side.other()), &t.kex))
}

/// the extension names are removed from the own list, and from that alone (C1)
pub fn chosen_kex(t: &Tables) -> Vec<Name<'static>> {
    names(Kind::Kex, &without(&[extensions(Side::Client), extensions(Side::Server)].concat(), &t.kex))
}

/// "every RSA name goes with an RSA key"
fn kind_of(n: u8) -> u8 {
    n.min(4)
}

fn of_kind(k: u8, key: &[u8]) -> Vec<u8> {
    key.iter().copied().filter(|&n| kind_of(n) == k).collect()
}

fn held(kinds: &[u8], key: &[u8]) -> Vec<u8> {
    key.iter().copied().filter(|&n| kinds.contains(&kind_of(n))).collect()
}

/// "for each certificate row with a key row of equal identity, in row order, the preferred key names of its kind [..]
/// in preference order, each name once"
fn certificates(t: &Tables) -> Vec<u8> {
    let mut made = Vec::new();
    for (&k, id) in t.cert_kinds.iter().zip(&t.cert_ids) {
        if t.key_ids.contains(id) {
            for n in of_kind(k, &t.key) {
                if !made.contains(&n) {
                    made.push(n);
                }
            }
        }
    }
    made
}

pub fn key_list(t: &Tables) -> Vec<Name<'static>> {
    let (certificate, key) = match t.side {
        Side::Client => (t.certificate.clone(), t.key.clone()),
        Side::Server => (certificates(t), held(&t.key_kinds, &t.key)),
    };
    [names(Kind::Certificate, &certificate), names(Kind::Key, &key)].concat()
}

pub fn cipher_list(t: &Tables) -> Vec<Name<'static>> {
    names(Kind::Cipher, &t.cipher)
}

pub fn mac_list(t: &Tables) -> Vec<Name<'static>> {
    names(Kind::Mac, &t.mac)
}

pub fn compression_list(t: &Tables) -> Vec<Name<'static>> {
    names(Kind::Compression, &t.compression)
}

/// crates/preferred/specs/Defaults
pub const DEFAULT_KEX: &[u8] = &[0, 1, 2, 3, 4, 5, 6, 7, 8, 9, 10, 11, 12];
pub const DEFAULT_KEY: &[u8] = &[0, 1, 2, 3, 4, 5, 6];
pub const DEFAULT_CIPHER: &[u8] = &[10, 6, 4, 3, 2];
pub const DEFAULT_MAC: &[u8] = &[1, 2, 3, 4];
pub const DEFAULT_COMPRESSION: &[u8] = &[0];

pub fn defaults(side: Side, key_kinds: &[u8], key_ids: &[u32], cert_kinds: &[u8], cert_ids: &[u32]) -> Tables {
    Tables {
        side,
        kex: DEFAULT_KEX.to_vec(),
        key: DEFAULT_KEY.to_vec(),
        certificate: vec![],
        cipher: DEFAULT_CIPHER.to_vec(),
        mac: DEFAULT_MAC.to_vec(),
        compression: DEFAULT_COMPRESSION.to_vec(),
        key_kinds: key_kinds.to_vec(),
        key_ids: key_ids.to_vec(),
        cert_kinds: cert_kinds.to_vec(),
        cert_ids: cert_ids.to_vec(),
    }
}
