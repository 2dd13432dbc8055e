//! The names of the tables, asked one by one: these answers carry no offset.

use crate::header::*;
use crate::lender::{reading, writing};
use crate::{MALFORMED, exactly, flag, written};
use plain::{Out, Refusal};

pub fn spelling(kind: u8, number: u8, out: &mut [u8]) -> Out<usize> {
    written(writing(out, |_, out, len| unsafe { harupesat_spelling(kind, number, out, len) })?)
}

/// a name's number, none for a name that the kind does not have
pub fn lookup(kind: u8, name: &[u8]) -> Out<Option<u8>> {
    let a = accepted!(reading(|l| unsafe { harupesat_lookup(kind, l.lend(name), name.len()) })?, Found);
    if a.what == UNKNOWN {
        exactly(a, Found { what: UNKNOWN, number: 0, value: 0 })?;
        return Ok(None);
    }
    exactly((a.what, a.number), (DONE, 0))?;
    Ok(Some(a.value))
}

fn flagged(answer: Flag) -> Out<bool> {
    let a = accepted!(answer, Flag);
    exactly((a.what, a.number), (DONE, 0))?;
    flag(a.value)
}

pub fn needs_mac(cipher: u8) -> Out<bool> {
    flagged(harupesat_needs_mac(cipher))
}

pub fn built_in_integrity(cipher: u8) -> Out<bool> {
    flagged(harupesat_built_in_integrity(cipher))
}

pub fn default_list(kind: u8, out: &mut [u8]) -> Out<usize> {
    written(writing(out, |_, out, len| unsafe { harupesat_default_list(kind, out, len) })?)
}
