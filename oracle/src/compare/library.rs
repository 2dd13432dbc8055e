//! The library's answers, in plain numbers and bytes, and whether each byte of `out` that must stay has stayed.

use crate::modelled::encoded;
use cases::beyond::Beyond;
use cases::named::Named;
use cases::{Answer, Case};
use plain::{Out, Tables};

/// In a refusal's place: a byte of `out` was changed that must not be. Whoever writes outside of it ends the run.
const TOUCHED: u8 = 254;

/// What stands in `out` before: no byte that the writers write all the time.
fn before(n: usize) -> Vec<u8> {
    (0..n).map(|i| (i * 7) as u8 ^ 0xA5).collect()
}

/// What is written at the front of an `out` of so many bytes, all else in it unchanged.
fn lent<T>(room: usize, write: impl FnOnce(&mut [u8]) -> Out<(usize, T)>) -> Out<(Vec<u8>, T)> {
    let untouched = before(room);
    let mut out = untouched.clone();
    let answer = write(&mut out);
    let n = answer.as_ref().map_or(0, |(n, _)| *n);
    if n > room {
        return Err(ours::MALFORMED.into());
    }
    if out[n..] != untouched[n..] {
        return Err(TOUCHED.into());
    }
    answer.map(|(n, more)| (out[..n].to_vec(), more))
}

fn bytes(room: usize, write: impl FnOnce(&mut [u8]) -> Out<usize>) -> Answer {
    Answer::Bytes(lent(room, |out| write(out).map(|n| (n, ()))).map(|(bytes, ())| bytes))
}

fn writing(case: &Case, room: usize) -> Answer {
    match case {
        Case::WriteKex { tables, cookie } => bytes(room, |out| ours::write_kex(tables, cookie, out)),
        Case::FrameWrite { payload, counters } => {
            Answer::Sealed(lent(room, |out| ours::frame_write(payload, *counters, out)))
        }
        Case::Fail { recipient, reason, text } => bytes(room, |out| ours::fail(*recipient, *reason, text, out)),
        Case::UnknownType { recipient } => bytes(room, |out| ours::unknown_type(*recipient, out)),
        _ => unreachable!("a reader has no out"),
    }
}

/// A writer gets an `out` of exactly `room` bytes.
pub fn case(case: &Case, room: usize) -> Answer {
    match case {
        Case::ReadKex { tables, strict_agreed, payload } => Answer::Names(ours::read_kex(tables, *strict_agreed, payload)),
        Case::FrameRead { bytes, counters } => {
            Answer::Read(ours::frame_read(bytes, *counters).map(|(read, _)| read))
        }
        Case::Open { body } => Answer::Open(ours::open(body).map(|(opening, _)| opening)),
        Case::Confirmation { body } => Answer::Confirmation(ours::confirmation(body)),
        writer => writing(writer, room),
    }
}

pub fn named(named: &Named) -> Answer {
    let flag = |answer: Out<bool>| Answer::Bytes(answer.map(|flag| vec![flag as u8]));
    match named {
        Named::Spelling { kind, number, room } => bytes(*room, |out| ours::spelling(*kind, *number, out)),
        Named::Lookup { kind, name } => {
            Answer::Bytes(ours::lookup(*kind, name).map(|number| number.into_iter().collect()))
        }
        Named::NeedsMac { cipher } => flag(ours::needs_mac(*cipher)),
        Named::BuiltInIntegrity { cipher } => flag(ours::built_in_integrity(*cipher)),
        Named::DefaultList { kind, room } => bytes(*room, |out| ours::default_list(*kind, out)),
    }
}

fn places(case: &Case) -> Out<Vec<u8>> {
    match case {
        Case::FrameRead { bytes, counters } => {
            ours::frame_read(bytes, *counters).map(|(_, place)| encoded(&[place]))
        }
        Case::Open { body } => ours::open(body).map(|(_, places)| encoded(&places)),
        _ => unreachable!("places are asked of packets and messages alone"),
    }
}

pub fn beyond(beyond: &Beyond) -> Answer {
    match beyond {
        Beyond::Reading(c) | Beyond::Offset(c) => case(c, 0),
        Beyond::Places(c) => Answer::Bytes(places(c)),
        Beyond::Writing { case, room } => writing(case, *room),
        Beyond::Cookie { tables, cookie, room } => bytes(*room, |out| ours::write_kex(tables, cookie, out)),
        Beyond::Show { bytes, start, len } => Answer::Bytes(ours::show(bytes, (*start, *len))),
    }
}

/// A KEXINIT of valid tables.
pub fn write_kex(tables: &Tables, cookie: &[u8; 16]) -> Vec<u8> {
    let mut out = vec![0; 4096];
    let n = ours::write_kex(tables, cookie, &mut out).expect("4,096 bytes are enough for valid tables");
    out.truncate(n);
    out
}
