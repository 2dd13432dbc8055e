//! KEXINIT of the default tables: reading what real peers sent, and writing.

use crate::case::{Case, lent, same};
use crate::library;
use plain::{Counters, Read, Side, Tables};
use russh::door::{self, oracle};
use ssh_key::{Algorithm, EcdsaCurve, PrivateKey};
use std::path::Path;

/// A server's keys: one of each kind, in the order of the kinds.
const KEYS: [(Algorithm, u32); 5] = [
    (Algorithm::Ed25519, 10),
    (Algorithm::Ecdsa { curve: EcdsaCurve::NistP256 }, 11),
    (Algorithm::Ecdsa { curve: EcdsaCurve::NistP384 }, 12),
    (Algorithm::Ecdsa { curve: EcdsaCurve::NistP521 }, 13),
    (Algorithm::Rsa { hash: None }, 14),
];

/// One end, as each of the two holds it.
#[derive(Clone, Copy)]
pub struct End {
    pub name: &'static str,
    pub tables: &'static Tables,
    pub theirs: &'static door::Side,
}

pub fn ends() -> [End; 2] {
    let keys = KEYS.map(|(kind, id)| PrivateKey::stand_in(kind, id)).into();
    let server = oracle::defaults(Side::Server, &[0, 1, 2, 3, 4], &KEYS.map(|(_, id)| id), &[], &[]);
    let client = oracle::defaults(Side::Client, &[], &[], &[], &[]);
    [
        End { name: "server", tables: lent(server.into()), theirs: lent(door::Side::server(keys).into()) },
        End { name: "client", tables: lent(client.into()), theirs: lent(door::Side::client().into()) },
    ]
}

/// Ours on the payload, after both gave the same answer.
pub fn read(name: String, end: End, payload: &'static [u8]) -> Case {
    let answer = oracle::read_kex(end.tables, false, payload);
    same(ours::read_kex(end.tables, false, payload), &answer);
    assert_eq!(door::read_kex(end.theirs, payload).is_ok(), answer.is_ok());
    Case::new(name, move || library::read_kex(end.tables, payload))
}

fn captured(folder: &Path) -> Vec<(String, Vec<u8>)> {
    let index = std::fs::read_to_string(folder.join("INDEX.tsv")).expect("the captures' index");
    let files = index.lines().skip(1).map(|line| line.split('\t').next().unwrap_or_default());
    files
        .map(|file| {
            let packet = std::fs::read(folder.join(file)).expect("a file of the index");
            let Ok(Read::Packet { payload, .. }) = oracle::frame_read(&packet, Counters { seqn: 0, bytes: 0 }) else {
                panic!("{file} is no whole packet");
            };
            (file.trim_end_matches(".bin").to_string(), payload)
        })
        .collect()
}

pub fn reads(captures: &Path) -> Vec<Case> {
    let mut cases = Vec::new();
    for (file, payload) in captured(captures) {
        let payload = lent(payload.into_boxed_slice());
        for end in ends() {
            cases.push(
                read(format!("{file}, as {}", end.name), end, payload)
                    .against("russh", Some(0.35), move || door::read_kex(end.theirs, payload)),
            );
        }
    }
    cases
}

/// To the same end as the Rust's: the payload, and its packet beside it.
fn write(end: End) -> Case {
    let cookie: &'static [u8; 16] = &[7; 16];
    let (mut payload, mut packet) = (vec![0; 4_096], vec![0; 4_112]);
    let mut writer = door::Writer::with_capacity(4_112);
    let ours = ours::write_kex(end.tables, cookie, &mut payload).map(|len| payload[..len].to_vec());
    let theirs = door::write_kex(end.theirs, cookie, &mut writer).expect("the default tables can be written");
    assert_eq!(ours, Ok(theirs.as_ref().to_vec()));

    let both = move || {
        let w = library::write_kex(end.tables, cookie, &mut payload);
        (library::frame_write(&payload[..w.len], &mut packet), w)
    };
    Case::new(format!("as {}", end.name), both).against("russh", None, move || {
        door::write_kex(end.theirs, cookie, &mut writer)
    })
}

pub fn writes() -> Vec<Case> {
    ends().map(write).into()
}
