//! KEXINITs: written by the Rust from random valid tables, put together by hand, damaged, and at every limit.

use crate::Case;
use crate::lists::{POOLS, TEXTS, list};
use crate::rng::Rng;
use plain::{Side, Tables};
use russh::door;

/// A payload in its fields: kex, key, cipher twice, MAC twice, compression twice, two languages.
#[derive(Clone)]
pub struct Fields {
    pub lists: [Vec<u8>; 10],
    pub follows: u8,
    pub reserved: u32,
    pub tail: Vec<u8>,
}

impl Fields {
    pub fn payload(&self) -> Vec<u8> {
        let mut p = vec![20; 17];
        for list in &self.lists {
            p.extend((list.len() as u32).to_be_bytes());
            p.extend(list);
        }
        p.push(self.follows);
        p.extend(self.reserved.to_be_bytes());
        p.extend(&self.tail);
        p
    }

    /// the fields of a payload that is whole
    pub fn of(payload: &[u8]) -> Option<Fields> {
        let mut left = payload.get(17..)?;
        let mut lists: [Vec<u8>; 10] = Default::default();
        for list in &mut lists {
            let n = u32::from_be_bytes(*left.first_chunk()?) as usize;
            *list = left.get(4..)?.get(..n)?.to_vec();
            left = &left[4 + n..];
        }
        let reserved = u32::from_be_bytes(*left.get(1..)?.first_chunk()?);
        Some(Fields { lists, follows: left[0], reserved, tail: left[5..].to_vec() })
    }
}

fn numbers(r: &mut Rng, count: usize) -> Vec<u8> {
    let n = match r.below(12) {
        0 => r.below(2),
        1 => r.below(5),
        2..5 => 16,
        _ => 4 + r.below(13),
    };
    (0..n).map(|_| r.below(count) as u8).collect()
}

pub fn side(r: &mut Rng) -> Side {
    *r.of(&[Side::Client, Side::Server])
}

/// valid tables of a side: an identity has one kind
pub fn tables(r: &mut Rng, side: Side) -> Tables {
    let kinds: Vec<u8> = (0..6).map(|_| r.below(5) as u8).collect();
    let ids = |r: &mut Rng| -> Vec<u32> {
        match side {
            Side::Client => vec![],
            Side::Server => (0..r.below(9)).map(|_| r.below(6) as u32).collect(),
        }
    };
    let (key_ids, cert_ids) = (ids(r), ids(r));
    let kinds_of = |ids: &[u32]| ids.iter().map(|&i| kinds[i as usize]).collect::<Vec<u8>>();
    // identities are any u32: the small ones are spread out
    let spread = |ids: &[u32]| ids.iter().map(|&i| i.wrapping_mul(0x3333_3333)).collect::<Vec<u32>>();
    Tables {
        side,
        kex: numbers(r, 13),
        key: numbers(r, 7),
        certificate: if r.once_in(2) { vec![] } else { numbers(r, 7) },
        cipher: numbers(r, 11),
        mac: numbers(r, 5),
        compression: if r.once_in(20) { vec![] } else { vec![0; 1 + r.below(16)] },
        key_kinds: kinds_of(&key_ids),
        key_ids: spread(&key_ids),
        cert_kinds: kinds_of(&cert_ids),
        cert_ids: spread(&cert_ids),
    }
}

pub fn cookie(r: &mut Rng) -> [u8; 16] {
    r.bytes(16).try_into().expect("16 bytes")
}

fn read(r: &mut Rng, tables: &Tables, payload: Vec<u8>) -> Case {
    Case::ReadKex { tables: tables.clone(), strict_agreed: r.once_in(8), payload }
}

/// What two sides of the Rust write, and what each reads of the other; and of a damaged copy.
pub fn pair(r: &mut Rng) -> Vec<Case> {
    pair_by(r, &door::write_kex)
}

/// The same, written by anyone.
pub fn pair_by(r: &mut Rng, write: &dyn Fn(&Tables, &[u8; 16]) -> Vec<u8>) -> Vec<Case> {
    let (client, server) = (tables(r, Side::Client), tables(r, Side::Server));
    let (a, b) = (cookie(r), cookie(r));
    let (from_client, from_server) = (write(&client, &a), write(&server, &b));
    let (spoilt, spoilt2) = (r.damaged(&from_client), r.damaged(&from_server));
    vec![
        read(r, &client, from_server),
        read(r, &server, from_client),
        read(r, &client, spoilt2),
        read(r, &server, spoilt),
        Case::WriteKex { tables: client, cookie: a },
        Case::WriteKex { tables: server, cookie: b },
    ]
}

/// lists as peers may send them
pub fn fields(r: &mut Rng) -> Fields {
    let mut lists: [Vec<u8>; 10] = Default::default();
    let odd = r.once_in(2);
    for (field, pool) in lists.iter_mut().zip(POOLS) {
        *field = list(r, pool, odd);
    }
    for field in [3, 8, 9] {
        if r.once_in(3) {
            lists[field] = if odd { *r.of(TEXTS) } else { TEXTS[r.below(10)] }.to_vec();
        }
    }
    Fields {
        lists,
        follows: *r.of(&[0, 0, 1, 1, 2, 255]),
        reserved: r.number(),
        tail: if odd && r.once_in(8) { r.bytes(1) } else { vec![] },
    }
}

/// Sides with long lists, so that the later fields are reached, and a payload put together by hand.
pub fn by_hand(r: &mut Rng) -> Case {
    let side = side(r);
    let mut t = tables(r, side);
    if !r.once_in(4) {
        let whole = full(side);
        (t.kex, t.key, t.cipher) = (shuffled(r, &whole.kex), shuffled(r, &whole.key), shuffled(r, &whole.cipher));
        (t.key_kinds, t.key_ids, t.compression) = (whole.key_kinds, whole.key_ids, whole.compression);
        (t.cert_kinds, t.cert_ids) = (vec![], vec![]);
    }
    let payload = fields(r).payload();
    let payload = if r.once_in(6) { r.damaged(&payload) } else { payload };
    read(r, &t, payload)
}

fn shuffled(r: &mut Rng, list: &[u8]) -> Vec<u8> {
    let mut l = list.to_vec();
    for i in (1..l.len()).rev() {
        l.swap(i, r.below(i + 1));
    }
    l
}

/// every name of every table, and a key of each kind
pub fn full(side: Side) -> Tables {
    let (key_kinds, key_ids) = match side {
        Side::Client => (vec![], vec![]),
        Side::Server => ((0..5).collect(), (0..5).collect()),
    };
    Tables {
        side,
        kex: (0..13).collect(),
        key: (0..7).collect(),
        certificate: vec![],
        cipher: (0..11).collect(),
        mac: (0..5).collect(),
        compression: vec![0],
        key_kinds,
        key_ids,
        cert_kinds: vec![],
        cert_ids: vec![],
    }
}

/// a payload that both full sides accept
pub fn plain_fields() -> Fields {
    let lists = [
        "curve25519-sha256",
        "ssh-ed25519",
        "aes128-ctr",
        "aes128-ctr",
        "hmac-sha2-256",
        "hmac-sha2-256",
        "none",
        "none",
        "",
        "",
    ];
    Fields { lists: lists.map(|l| l.as_bytes().to_vec()), follows: 0, reserved: 0, tail: vec![] }
}
