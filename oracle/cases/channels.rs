//! Channel bodies of all seven types and of unknown ones, whole and damaged.

use crate::Case;
use crate::lists::TEXTS;
use crate::rng::Rng;

const TYPES: &[(&[u8], &str)] = &[
    (b"session", ""),
    (b"auth-agent@openssh.com", ""),
    (b"x11", "sn"),
    (b"direct-tcpip", "snsn"),
    (b"forwarded-tcpip", "snsn"),
    (b"direct-streamlocal@openssh.com", "ssn"),
    (b"forwarded-streamlocal@openssh.com", "ss"),
];

const OTHERS: &[&[u8]] = &[
    b"",
    b"sessio",
    b"session\0",
    b"Session",
    b"x12",
    b"direct-tcpi",
    b"direct-tcpip@openssh.com",
    b"auth-agent",
    b"tun@openssh.com",
    "sessi\u{f6}n".as_bytes(),
    b"\xFF",
    b"session\x80",
];

fn string(out: &mut Vec<u8>, s: &[u8]) {
    out.extend((s.len() as u32).to_be_bytes());
    out.extend(s);
}

fn put_fields(r: &mut Rng, out: &mut Vec<u8>, layout: &str) {
    for field in layout.chars() {
        match field {
            's' => {
                let text = if r.once_in(4) { *r.of(TEXTS) } else { TEXTS[r.below(10)] };
                string(out, text);
            }
            _ => {
                let n = r.number();
                out.extend(n.to_be_bytes());
            }
        }
    }
}

pub fn open(r: &mut Rng) -> Case {
    let (typ, layout) = if r.once_in(5) { (*r.of(OTHERS), "sn") } else { *r.of(TYPES) };
    let mut body = Vec::new();
    string(&mut body, typ);
    for _ in 0..2 {
        let n = r.number();
        body.extend(n.to_be_bytes());
    }
    let most = if r.once_in(10) { 0 } else { r.number() };
    body.extend(most.to_be_bytes());
    put_fields(r, &mut body, layout);
    Case::Open { body: if r.once_in(3) { r.damaged(&body) } else { body } }
}

pub fn confirmation(r: &mut Rng) -> Case {
    let mut body = Vec::new();
    for _ in 0..4 {
        let n = r.number();
        body.extend(n.to_be_bytes());
    }
    if r.once_in(2) {
        body = r.damaged(&body);
    }
    Case::Confirmation { body }
}

pub fn fail(r: &mut Rng) -> Case {
    let n = if r.once_in(8) { r.below(1025) } else { r.below(40) };
    match r.below(8) {
        0 => Case::UnknownType { recipient: r.number() },
        _ => Case::Fail { recipient: r.number(), reason: r.byte(), text: r.bytes(n) },
    }
}

/// Each type cut at every byte and with a byte more; maximum 0; the longest body.
pub fn limits() -> Vec<Case> {
    let mut cases = Vec::new();
    let others = OTHERS.iter().map(|t| (*t, "sn"));
    for (typ, layout) in TYPES.iter().copied().chain(others) {
        let mut r = Rng::new(typ.len() as u64);
        for most in [0u32, 1, 32768, u32::MAX] {
            let mut body = Vec::new();
            string(&mut body, typ);
            body.extend([0, 0, 0, 7, 0, 32, 0, 0]);
            body.extend(most.to_be_bytes());
            for field in layout.chars() {
                match field {
                    's' => string(&mut body, b"ab"),
                    _ => body.extend(r.number().to_be_bytes()),
                }
            }
            for n in 0..=body.len() {
                cases.push(Case::Open { body: body[..n].to_vec() });
            }
            body.push(0);
            cases.push(Case::Open { body });
        }
    }
    let mut long = Vec::new();
    string(&mut long, b"tun@openssh.com");
    long.extend([0, 0, 0, 7, 0, 32, 0, 0, 0, 0, 128, 0]);
    long.resize(262175, 0x5A);
    cases.push(Case::Open { body: long });
    for n in 0..=20 {
        cases.push(Case::Confirmation { body: (1..=n).collect() });
        cases.push(Case::Confirmation { body: vec![0; n as usize] });
    }
    for n in [0, 1, 20, 1023, 1024] {
        cases.push(Case::Fail { recipient: 1, reason: 255, text: vec![0xFF; n] });
    }
    for recipient in [0, 1, 0xFFFF_FFFF] {
        cases.push(Case::UnknownType { recipient });
    }
    cases
}

/// A type of these bytes: accepted as unknown, or 3. What a string takes is seen here alone.
pub fn typed(typ: &[u8]) -> Case {
    let mut body = Vec::new();
    string(&mut body, typ);
    body.extend([0, 0, 0, 1, 0, 0, 0, 2, 0, 0, 0, 3]);
    Case::Open { body }
}

/// UTF-8: all strings of two bytes, of three with a lead byte from C0 on, and the edges of those of four
pub fn utf8() -> impl Iterator<Item = Case> {
    let two = (0..=0xFFFFu32).map(|n| typed(&n.to_be_bytes()[2..]));
    let three = (0xC0_0000..=0xFF_FFFFu32).step_by(1).filter(|n| matches!(n & 0xFF, 0x2C | 0x7F..=0x81 | 0xBE..=0xC1))
        .map(|n| typed(&n.to_be_bytes()[1..]));
    let edge: [u8; 8] = [0x00, 0x7F, 0x80, 0x8F, 0x90, 0xBF, 0xC0, 0xFF];
    let four = (0xF0..=0xF8u8).flat_map(move |a| {
        (0..=0xFFu8).flat_map(move |b| {
            edge.into_iter().flat_map(move |c| edge.into_iter().map(move |d| typed(&[a, b, c, d])))
        })
    });
    two.chain(three).chain(four)
}
