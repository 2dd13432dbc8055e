//! The names of the tables, asked one by one. Answers are bytes: a name; a number or nothing for a lookup; 0 or 1 for a
//! flag; numbers for a list.

use crate::{Answer, lines, lists};
use plain::Side;
use russh::door;

#[derive(Debug, Clone)]
pub enum Named {
    Spelling { kind: u8, number: u8, room: usize },
    Lookup { kind: u8, name: Vec<u8> },
    NeedsMac { cipher: u8 },
    BuiltInIntegrity { cipher: u8 },
    DefaultList { kind: u8, room: usize },
}

use Named::*;

const KEY: u8 = 1;
const CERTIFICATE: u8 = 2;

impl Named {
    pub fn function(&self) -> &'static str {
        match self {
            Spelling { .. } => "spelling",
            Lookup { .. } => "lookup",
            NeedsMac { .. } => "needs_mac",
            BuiltInIntegrity { .. } => "built_in_integrity",
            DefaultList { .. } => "default_list",
        }
    }

    pub fn line(&self) -> String {
        let asked = match self {
            Spelling { kind, number, room } => format!("{kind} {number} out {room}"),
            Lookup { kind, name } => format!("{kind} {}", lines::quoted(name)),
            NeedsMac { cipher } | BuiltInIntegrity { cipher } => cipher.to_string(),
            DefaultList { kind, room } => format!("{kind} out {room}"),
        };
        format!("{} {asked}", self.function())
    }

    /// The text's answer, where it has one: not on keys and certificates, whose names are a stand-in's.
    pub fn oracle(&self) -> Option<Answer> {
        let bytes = match self {
            Spelling { kind, number, room } => {
                door::spelling(*kind, *number).map(|name| name.as_bytes().to_vec()).filter(|name| name.len() <= *room)
            }
            Lookup { kind: KEY | CERTIFICATE | 6.., .. } => None,
            Lookup { kind, name } => {
                let number = (0..=255).find(|&n| door::spelling(*kind, n).is_some_and(|s| s.as_bytes() == name));
                Some(number.into_iter().collect())
            }
            NeedsMac { cipher } => door::needs_mac(*cipher).map(|needs| vec![needs as u8]),
            BuiltInIntegrity { .. } => None,
            DefaultList { kind, room } => default_list(*kind).filter(|list| list.len() <= *room),
        };
        bytes.map(|bytes| Answer::Bytes(Ok(bytes)))
    }
}

fn default_list(kind: u8) -> Option<Vec<u8>> {
    let t = door::defaults(Side::Client, &[], &[], &[], &[]);
    [t.kex, t.key, t.certificate, t.cipher, t.mac, t.compression].into_iter().nth(kind as usize)
}

pub fn all() -> impl Iterator<Item = Named> {
    spellings().chain(lookups()).chain(flags()).chain(default_lists())
}

/// every kind and number that a byte can say; `out` of every length up to the longest name and over it
fn spellings() -> impl Iterator<Item = Named> {
    let any = (0..=255u8).flat_map(|kind| (0..=255u8).map(move |number| Spelling { kind, number, room: 64 }));
    let rooms = (0..6u8).flat_map(|kind| {
        (0..14u8).flat_map(move |number| (0..=64).map(move |room| Spelling { kind, number, room }))
    });
    any.chain(rooms)
}

/// every name of every pool in every kind; each one byte shorter, longer, and with one byte changed
fn lookups() -> impl Iterator<Item = Named> {
    let names: Vec<Vec<u8>> = lists::POOLS.iter().flat_map(|pool| pool.iter()).map(|n| n.as_bytes().to_vec()).collect();
    let kinds = [0u8, 1, 2, 3, 4, 5, 6, 255];
    names.into_iter().flat_map(near).chain([vec![], vec![0; 300]]).flat_map(move |name| {
        kinds.into_iter().map(move |kind| Lookup { kind, name: name.clone() })
    })
}

fn near(name: Vec<u8>) -> Vec<Vec<u8>> {
    let mut all = vec![name[1..].to_vec(), name[..name.len() - 1].to_vec(), [&name[..], b"x"].concat()];
    for i in 0..name.len() {
        let mut changed = name.clone();
        changed[i] ^= 0x20;
        all.push(changed);
    }
    all.push(name);
    all
}

fn flags() -> impl Iterator<Item = Named> {
    (0..=255).flat_map(|cipher| [NeedsMac { cipher }, BuiltInIntegrity { cipher }])
}

fn default_lists() -> impl Iterator<Item = Named> {
    let any = (0..=255u8).map(|kind| DefaultList { kind, room: 16 });
    any.chain((0..6).flat_map(|kind| (0..=20).map(move |room| DefaultList { kind, room })))
}
