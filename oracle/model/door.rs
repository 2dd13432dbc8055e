//! crates/kinds/specs/Kinds, crates/names/specs/Numbered: names asked by the number of their kind. The structs that cross are src/ours.

use crate::answer::{Out, guard, refuse};
use crate::names::{Kind, count, number_of, spelled};
use crate::preferred::{DEFAULT_CIPHER, DEFAULT_COMPRESSION, DEFAULT_KEX, DEFAULT_KEY, DEFAULT_MAC};

fn kind_of(n: u8) -> Out<Kind> {
    match n {
        0 => Ok(Kind::Kex),
        1 => Ok(Kind::Key),
        2 => Ok(Kind::Certificate),
        3 => Ok(Kind::Cipher),
        4 => Ok(Kind::Mac),
        5 => Ok(Kind::Compression),
        _ => refuse(9),
    }
}

pub fn name_of(kind: u8, number: u8) -> Out<Vec<u8>> {
    let k = kind_of(kind)?;
    guard(9, (number as usize) < count(k))?;
    Ok(spelled(k, number).to_vec())
}

pub fn named_of(kind: u8, name: &[u8]) -> Out<Option<u8>> {
    let k = kind_of(kind)?;
    Ok(number_of(k, name))
}

fn default_of(k: Kind) -> &'static [u8] {
    match k {
        Kind::Kex => DEFAULT_KEX,
        Kind::Key => DEFAULT_KEY,
        Kind::Certificate => &[],
        Kind::Cipher => DEFAULT_CIPHER,
        Kind::Mac => DEFAULT_MAC,
        Kind::Compression => DEFAULT_COMPRESSION,
    }
}

pub fn default_list(kind: u8) -> Out<Vec<u8>> {
    let k = kind_of(kind)?;
    Ok(default_of(k).to_vec())
}
