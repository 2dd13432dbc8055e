//! crates/framing/specs: Clear, Answers

use crate::answer::{Out, guard, guard_at};
use crate::put;
use crate::wire::{Place, big_endian};
use plain::Counters;

pub const MOST_LENGTH: usize = 262177;

#[derive(Debug, Clone, PartialEq, Eq)]
pub struct Packet {
    pub payload: Place,
    pub end: usize,
    pub taken: usize,
    pub counters: Counters,
}

#[derive(Debug, Clone, PartialEq, Eq)]
pub enum Read {
    Need(usize),
    Packet(Packet),
}

/// "p = 8 minus (5 + n) mod 8, plus 8 if under 4"
pub fn padding_length(n: usize) -> usize {
    let p = 8 - (5 + n) % 8;
    if p < 4 { p + 8 } else { p }
}

pub fn packet_length(n: usize) -> usize {
    1 + n + padding_length(n)
}

/// the length is the packet's first field
fn judged_length(len: usize) -> Out<()> {
    guard(4, len <= MOST_LENGTH)
}

/// the padding's byte comes after the length's four
fn judged_padding(len: usize, padding: usize) -> Out<()> {
    guard_at(7, 4, padding <= len)
}

pub fn counted(n: usize, k: Counters) -> Counters {
    Counters {
        seqn: ((k.seqn as u64 + 1) % 4294967296) as u32,
        bytes: (k.bytes as u128 + n as u128).min(18446744073709551615) as u64,
    }
}

pub fn frame(payload: &[u8]) -> Vec<u8> {
    let p = padding_length(payload.len());
    [put::word(packet_length(payload.len()) as u64), vec![p as u8], payload.to_vec(), vec![0; p]].concat()
}

pub fn packet_of(payload: &[u8]) -> Out<Vec<u8>> {
    judged_length(packet_length(payload.len()))?;
    Ok(frame(payload))
}

/// how many bytes were written at the front of the lent output, and the new counters
pub fn sealing(out: &[u8], payload: &[u8], k: Counters) -> Out<(usize, Counters)> {
    let n = put::written(out, 0, &packet_of(payload))?;
    Ok((n, counted(payload.len(), k)))
}

fn padding_of(s: &[u8], len: usize) -> usize {
    if len == 0 { 0 } else { s[4] as usize }
}

fn packet_at(len: usize, padding: usize, k: Counters) -> Packet {
    let n = (len - padding).saturating_sub(1);
    Packet {
        payload: Place { start: len - padding + 4 - n, len: n },
        end: len - padding + 4,
        taken: len + 4,
        counters: counted(n, k),
    }
}

fn opened(s: &[u8], len: usize, k: Counters) -> Out<Read> {
    judged_padding(len, padding_of(s, len))?;
    Ok(Read::Packet(packet_at(len, padding_of(s, len), k)))
}

pub fn read_packet(s: &[u8], k: Counters) -> Out<Read> {
    if s.len() < 4 {
        return Ok(Read::Need(4));
    }
    let announced = big_endian(s) as usize;
    judged_length(announced)?;
    if s.len() < announced + 4 {
        return Ok(Read::Need(announced + 4));
    }
    opened(s, announced, k)
}
