//! The library's functions over slices, and every unsafe call (`ffi` declares them). Each hands back the library's
//! answer, or the refusal that it carries: of what reads with its offset.
//!
//! Why every call here is sound: each pointer and count are those of one slice; an output is borrowed mutably, so it
//! overlaps no other slice and nobody else writes to it; and the library, as is proved of it, ends, reads and writes inside
//! what it was lent, and keeps nothing.

use crate::ffi::*;
use crate::packet::Counters;
use crate::refusal::{ReadRefusal, Refusal};
use crate::size::{narrow, widen};
use crate::tables::{Side, Tables};

macro_rules! judged {
    ($call:expr) => {{
        let answer = $call;
        if answer.what == REFUSED { Err(refusal(answer.number)) } else { Ok(answer) }
    }};
}

macro_rules! judged_reading {
    ($call:expr) => {{
        let answer = $call;
        if answer.what == REFUSED { Err(refusal(answer.number).at(offset(answer.offset))) } else { Ok(answer) }
    }};
}

fn refusal(number: u8) -> Refusal {
    Refusal::from_number(number).unwrap_or_else(|| {
        panic!("the library refuses with {number}, which is new: this wrapper is older than the library")
    })
}

/// An offset is at most its slice's length, and so it fits. One that does not stays larger than any.
fn offset(offset: Size) -> usize {
    narrow(offset).unwrap_or(usize::MAX)
}

/// How many elements a slice has.
fn count<T>(s: &[T]) -> Size {
    widen(s.len())
}

pub fn frame_read(s: &[u8], k: Counters) -> Result<Frame, ReadRefusal> {
    judged_reading!(unsafe { harupesat_frame_read(s.as_ptr(), count(s), k.seqn, k.bytes) })
}

pub fn frame_write(payload: &[u8], k: Counters, out: &mut [u8]) -> Result<Sealed, Refusal> {
    judged!(unsafe {
        harupesat_frame_write(payload.as_ptr(), count(payload), k.seqn, k.bytes, out.as_mut_ptr(), count(out))
    })
}

#[rustfmt::skip]
pub fn write_kex(t: &Tables, cookie: &[u8], out: &mut [u8]) -> Result<Written, Refusal> {
    judged!(unsafe {
        harupesat_write_kex(
            t.side == Side::Server,
            t.kex.as_ptr(), count(&t.kex),
            t.key.as_ptr(), count(&t.key),
            t.certificate.as_ptr(), count(&t.certificate),
            t.cipher.as_ptr(), count(&t.cipher),
            t.mac.as_ptr(), count(&t.mac),
            t.compression.as_ptr(), count(&t.compression),
            t.key_kinds.as_ptr(), count(&t.key_kinds),
            t.key_ids.as_ptr(), count(&t.key_ids),
            t.cert_kinds.as_ptr(), count(&t.cert_kinds),
            t.cert_ids.as_ptr(), count(&t.cert_ids),
            cookie.as_ptr(), count(cookie),
            out.as_mut_ptr(), count(out),
        )
    })
}

#[rustfmt::skip]
pub fn read_kex(t: &Tables, strict_agreed: bool, payload: &[u8]) -> Result<Names, ReadRefusal> {
    judged_reading!(unsafe {
        harupesat_read_kex(
            t.side == Side::Server,
            t.kex.as_ptr(), count(&t.kex),
            t.key.as_ptr(), count(&t.key),
            t.certificate.as_ptr(), count(&t.certificate),
            t.cipher.as_ptr(), count(&t.cipher),
            t.mac.as_ptr(), count(&t.mac),
            t.compression.as_ptr(), count(&t.compression),
            t.key_kinds.as_ptr(), count(&t.key_kinds),
            t.key_ids.as_ptr(), count(&t.key_ids),
            t.cert_kinds.as_ptr(), count(&t.cert_kinds),
            t.cert_ids.as_ptr(), count(&t.cert_ids),
            strict_agreed,
            payload.as_ptr(), count(payload),
        )
    })
}

pub fn read_open(body: &[u8]) -> Result<Open, ReadRefusal> {
    judged_reading!(unsafe { harupesat_read_open(body.as_ptr(), count(body)) })
}

pub fn read_confirmation(body: &[u8]) -> Result<Confirmation, ReadRefusal> {
    judged_reading!(unsafe { harupesat_read_confirmation(body.as_ptr(), count(body)) })
}

pub fn fail(recipient: u32, reason: u8, text: &[u8], out: &mut [u8]) -> Result<Written, Refusal> {
    judged!(unsafe { harupesat_fail(recipient, reason, text.as_ptr(), count(text), out.as_mut_ptr(), count(out)) })
}

pub fn unknown_type(recipient: u32, out: &mut [u8]) -> Result<Written, Refusal> {
    judged!(unsafe { harupesat_unknown_type(recipient, out.as_mut_ptr(), count(out)) })
}

pub fn show(s: &[u8], start: Size, len: Size) -> Result<Shown, ReadRefusal> {
    judged_reading!(unsafe { harupesat_show(s.as_ptr(), count(s), start, len) })
}

pub fn spelling(kind: u8, number: u8, out: &mut [u8]) -> Result<Written, Refusal> {
    judged!(unsafe { harupesat_spelling(kind, number, out.as_mut_ptr(), count(out)) })
}

pub fn lookup(kind: u8, name: &[u8]) -> Result<Found, Refusal> {
    judged!(unsafe { harupesat_lookup(kind, name.as_ptr(), count(name)) })
}

pub fn needs_mac(cipher: u8) -> Result<Flag, Refusal> {
    judged!(harupesat_needs_mac(cipher))
}

pub fn built_in_integrity(cipher: u8) -> Result<Flag, Refusal> {
    judged!(harupesat_built_in_integrity(cipher))
}

pub fn default_list(kind: u8, out: &mut [u8]) -> Result<Written, Refusal> {
    judged!(unsafe { harupesat_default_list(kind, out.as_mut_ptr(), count(out)) })
}
