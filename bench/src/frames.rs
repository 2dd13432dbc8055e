//! Clear packets: writing and reading.

use crate::case::{Case, bytes, same};
use crate::library;
use crate::table::number;
use plain::{Counters, Read};
use russh::door::{self, oracle};
use russh::sshbuffer::SSHBuffer;
use std::hint::black_box;

const ZERO: Counters = Counters { seqn: 0, bytes: 0 };

/// Enough for any packet of the payload: include/harupesat.h.
fn room(payload: &[u8]) -> usize {
    payload.len() + 16
}

fn payload(n: usize) -> &'static [u8] {
    bytes((0..n).map(|i| i as u8).collect())
}

/// The Rust's buffer with room for the packet: it never grows within the count.
fn buffer(room: usize) -> SSHBuffer {
    SSHBuffer { buffer: Vec::with_capacity(room), ..SSHBuffer::new() }
}

/// libc's memcpy when it is told that the machine has 16-byte registers only, which run.sh does for this side.
pub const SSE2: &str = "memcpy, SSE2";

#[inline(never)]
fn memcpy(from: &[u8], to: &mut [u8]) {
    to[..from.len()].copy_from_slice(from);
}

/// Both write the same packet and count alike.
fn agree(payload: &[u8]) {
    let mut out = vec![0; room(payload)];
    let ours = ours::frame_write(payload, ZERO, &mut out).map(|(len, counters)| (out[..len].to_vec(), counters));
    let mut theirs = buffer(room(payload));
    door::frame_write(payload, &mut theirs);
    let counters = Counters { seqn: theirs.seqn.0, bytes: theirs.bytes as u64 };
    assert_eq!(ours, Ok((theirs.buffer, counters)));
}

fn write(n: usize) -> Case {
    let payload = payload(n);
    agree(payload);
    let mut out = vec![0; room(payload)];
    let mut theirs = buffer(room(payload));
    let (mut copied, mut again) = (vec![0; n], vec![0; n]);
    let copying = (n == 32_768).then_some(1.6);
    Case::new(number(n as f64), move || library::frame_write(payload, &mut out))
        .against("russh", (n <= 200).then_some(1.0), move || door::frame_write(payload, &mut theirs))
        .against("memcpy", copying, move || memcpy(payload, &mut copied))
        .against(SSE2, copying, move || memcpy(payload, &mut again))
}

/// Every remainder that a copy can leave, where the sizes above have some.
fn write_each(most: usize) -> Case {
    let payload = payload(most);
    (0..=most).for_each(|n| agree(&payload[..n]));
    let mut out = vec![0; room(payload)];
    let mut theirs = buffer(room(payload));
    let ours = move || {
        for n in 0..=most {
            black_box(library::frame_write(&payload[..n], &mut out));
        }
    };
    Case::new(format!("each of 0 to {most}, added up"), ours).against("russh", Some(1.0), move || {
        for n in 0..=most {
            door::frame_write(&payload[..n], &mut theirs);
        }
    })
}

pub fn writes() -> Vec<Case> {
    let mut cases: Vec<Case> = [0, 1, 31, 50, 100, 182, 191, 200, 32_768, 262_167].map(write).into();
    cases.push(write_each(200));
    cases
}

fn read(name: &str, input: &'static [u8]) -> Case {
    let answer = oracle::frame_read(input, ZERO);
    same(ours::frame_read(input, ZERO).map(|(read, _)| read), &answer);
    let mut theirs = buffer(input.len());
    assert_eq!(door::frame_read(input, &mut theirs).is_ok(), matches!(answer, Ok(Read::Packet { .. })));
    Case::new(name, move || library::frame_read(input)).under(100.0).against("russh", None, move || {
        theirs.len = 0; // the Rust keeps an announced length after a refusal
        door::frame_read(input, &mut theirs)
    })
}

pub fn reads() -> Vec<Case> {
    let mut cases: Vec<Case> = [0, 1, 50, 182, 1_024, 32_768, 262_167]
        .into_iter()
        .map(|n| read(&number(n as f64), bytes(oracle::frame_write(payload(n), ZERO).0)))
        .collect();
    cases.push(read("need: 3 bytes lent", &[0, 0, 0]));
    cases.push(read("need: a byte short of 192", bytes(oracle::frame_write(payload(182), ZERO).0[..191].to_vec())));
    cases.push(read("refused, 4", &[0, 4, 0, 0x22]));
    cases.push(read("refused, 7", &[0, 0, 0, 1, 2]));
    cases
}
