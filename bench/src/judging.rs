//! Texts and names judged, against std. Ours is reached through the functions that judge: a channel body with a type of so
//! many bytes, and a KEXINIT with so many bytes of names in its last list. What else those do is taken off as the count of
//! the same call with a short one.

use crate::case::{Case, bytes};
use crate::{channels, kex};

fn ascii(n: usize) -> Vec<u8> {
    (0..n).map(|i| b'a' + (i % 26) as u8).collect()
}

/// `unit` over and over, `n` bytes in all
fn repeated(unit: &str, n: usize) -> Vec<u8> {
    unit.bytes().cycle().take(n / unit.len() * unit.len()).collect()
}

fn from_utf8(text: &[u8]) -> bool {
    std::str::from_utf8(text).is_ok()
}

fn text(name: &str, goal: Option<f64>, typ: Vec<u8>) -> Case {
    let body = bytes(channels::opening(&typ));
    let typ = bytes(typ);
    channels::open(name, body).against("from_utf8", goal, move || from_utf8(typ))
}

/// The call with next to nothing to judge.
const SHORT: &str = "next to nothing: the whole call, taken off below";

pub fn texts() -> Vec<Case> {
    let rare = [ascii(1_022), "é".into()].concat();
    let rare = std::str::from_utf8(&rare).expect("an é after ASCII");
    let mut cases = vec![text(SHORT, None, ascii(1))];
    for (name, goal, typ) in [
        ("ASCII, 20 bytes", Some(1.0), ascii(20)),
        ("ASCII, 100 bytes", Some(1.0), ascii(100)),
        ("ASCII, 1,024 bytes", Some(1.0), ascii(1_024)),
        ("ASCII, 32,768 bytes", Some(1.0), ascii(32_768)),
        ("ASCII, 262,159 bytes", Some(1.0), ascii(262_159)),
        ("é at the end of each 1,024 bytes, 32,768 bytes", None, repeated(rare, 32_768)),
        ("é, 32,768 bytes", None, repeated("é", 32_768)),
        ("列, 32,766 bytes", None, repeated("列", 32_768)),
    ] {
        cases.push(text(name, goal, typ).less(SHORT));
    }
    cases
}

/// A name-list judged as src/helpers.rs does, with std alone and no copy.
#[inline(never)]
fn as_text(list: &[u8]) -> bool {
    let Ok(text) = std::str::from_utf8(list) else { return false };
    let mut count = 0;
    text.split(',').all(|name| {
        count += 1;
        !name.is_empty() && name.is_ascii() && count <= 1_025
    })
}

/// The same answer, with the least that std can do it with.
#[inline(never)]
fn as_bytes(list: &[u8]) -> bool {
    let mut count = 0;
    list.is_ascii()
        && list.split(|byte| *byte == b',').all(|name| {
            count += 1;
            !name.is_empty() && count <= 1_025
        })
}

/// A part of the work: nothing is cut.
#[inline(never)]
fn is_ascii(list: &[u8]) -> bool {
    list.is_ascii()
}

/// A KEXINIT that both ends accept with `none` as compression and nothing to look for after it.
fn kexinit(last: &[u8]) -> Vec<u8> {
    let names = ["curve25519-sha256", "ssh-ed25519", "aes256-ctr", "aes256-ctr", "hmac-sha2-256", "hmac-sha2-256", "none"];
    let mut payload = vec![20; 17];
    for list in names.iter().map(|n| n.as_bytes()).chain([last, b"", b""]) {
        payload.extend((list.len() as u32).to_be_bytes());
        payload.extend(list);
    }
    payload.extend([0; 5]);
    payload
}

fn names(name: &str, goal: Option<f64>, list: Vec<u8>) -> Case {
    let [server, _] = kex::ends();
    let payload = bytes(kexinit(&list));
    let list = bytes(list);
    assert!(as_text(list) && as_bytes(list));
    kex::read(name.to_string(), server, payload)
        .against("std, text", goal, move || as_text(list))
        .against("std, bytes", goal, move || as_bytes(list))
        .against("is_ascii", None, move || is_ascii(list))
}

pub fn lists() -> Vec<Case> {
    let after_none = |rest: &[u8]| [b"none,", rest].concat();
    let many = |n: usize| after_none(repeated("aes-for-nothing,", n - 5).strip_suffix(b",").expect("a comma at its end"));
    let mut cases = vec![names(SHORT, None, b"none".to_vec())];
    for (name, list) in [
        ("names of 15 bytes, 100 bytes in all", many(101)),
        ("names of 15 bytes, 1,012 bytes in all", many(1_024)),
        ("names of 15 bytes, 16,372 bytes in all", many(16_384)),
        ("one name, 16,384 bytes in all", after_none(&ascii(16_379))),
    ] {
        cases.push(names(name, Some(1.0), list).less(SHORT));
    }
    cases
}
