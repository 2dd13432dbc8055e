//! What the Rust has no answer for: numbers 1, 8 and 9, 4 on writing, 2 on showing, the byte count that stops at its
//! largest value, places as numbers, a refusal's offset, and the bytes of `out` that must stay. The model alone decides here.

use crate::kex::{cookie, full, plain_fields, side};
use crate::rng::Rng;
use crate::{Case, entries, lines};
use plain::{Counters, Side, Tables};

#[derive(Debug, Clone)]
pub enum Beyond {
    /// a reader's case outside what the Rust can be asked
    Reading(Case),
    /// an accepted reader's case: where its parts stand, starts and lengths in eight bytes each
    Places(Case),
    /// a refused reader's case: where the offending field starts
    Offset(Case),
    /// a writer's case with an `out` of so many bytes
    Writing { case: Case, room: usize },
    /// a KEXINIT to be written with a cookie of any length
    Cookie { tables: Tables, cookie: Vec<u8>, room: usize },
    /// a place to be shown
    Show { bytes: Vec<u8>, start: usize, len: usize },
}

use Beyond::*;

impl Beyond {
    pub fn function(&self) -> &'static str {
        match self {
            Reading(case) | Writing { case, .. } => case.function(),
            Places(Case::FrameRead { .. }) => "frame_read, places",
            Places(_) => "open, places",
            Offset(Case::ReadKex { .. }) => "read_kex, offset",
            Offset(Case::FrameRead { .. }) => "frame_read, offset",
            Offset(Case::Open { .. }) => "open, offset",
            Offset(_) => "confirmation, offset",
            Cookie { .. } => "write_kex",
            Show { .. } => "show",
        }
    }

    pub fn size(&self) -> usize {
        match self {
            Reading(case) | Places(case) | Offset(case) => case.size(),
            Writing { case, room } => case.size() + room,
            Cookie { tables, cookie, room } => entries(tables) + cookie.len() + room,
            Show { bytes, start, len } => bytes.len().saturating_add(*start).saturating_add(*len),
        }
    }

    pub fn line(&self) -> String {
        match self {
            Reading(case) => lines::case(case),
            Places(case) => format!("places of {}", lines::case(case)),
            Offset(case) => format!("{}, its offset", lines::case(case)),
            Writing { case, room } => format!("{} out {room}", lines::case(case)),
            Cookie { tables, cookie, room } => {
                format!("write_kex {} {} out {room}", lines::tables(tables), lines::quoted(cookie))
            }
            Show { bytes, start, len } => format!("show {} {start} {len}", lines::quoted(bytes)),
        }
    }
}

/// What goes with a case that was answered: a writer's `out` one byte short, and longer than needed; a reader's places, or
/// where it was refused. The Rust refuses no writer's.
pub fn beside(case: &Case, refused: bool, written: Option<usize>) -> Vec<Beyond> {
    match (case, written) {
        _ if refused => vec![Offset(case.clone())],
        (Case::FrameRead { .. } | Case::Open { .. }, _) => vec![Places(case.clone())],
        (_, Some(n)) => {
            [n - 1, n + 1 + n % 23].into_iter().map(|room| Writing { case: case.clone(), room }).collect()
        }
        _ => vec![],
    }
}

fn session(most: u32, size: usize) -> Vec<u8> {
    let mut body = [&[0, 0, 0, 3][..], b"tun", &[0, 0, 0, 7, 0, 32, 0, 0], &most.to_be_bytes()].concat();
    body.resize(size, 0x5A);
    body
}

fn long_kexinit(size: usize) -> Vec<u8> {
    let mut f = plain_fields();
    f.lists[9] = vec![b'x'; size - f.payload().len()];
    f.payload()
}

const ZERO: Counters = Counters { seqn: 0, bytes: 0 };

/// every limit of numbers 1, 4, 8 and 2, from both sides, and what comes first where two numbers could be given
pub fn limits() -> Vec<Beyond> {
    let mut all = Vec::new();
    let mut spoilt = full(Side::Client);
    spoilt.mac.push(5);
    for size in [262176, 262177, 262178, 300000] {
        for tables in [full(Side::Client), full(Side::Server), spoilt.clone()] {
            all.push(Reading(Case::ReadKex { tables, strict_agreed: false, payload: long_kexinit(size) }));
        }
        all.push(Reading(Case::ReadKex { tables: full(Side::Client), strict_agreed: false, payload: vec![0; size] }));
    }
    for size in [0, 16, 17] {
        all.push(Reading(Case::ReadKex { tables: spoilt.clone(), strict_agreed: true, payload: vec![0; size] }));
    }
    for size in [262174, 262175, 262176, 262177] {
        for most in [0, 1] {
            all.push(Reading(Case::Open { body: session(most, size) }));
            all.push(Reading(Case::Confirmation { body: session(most, size) }));
        }
    }
    for n in 262166..=262170usize {
        let total = (5 + n + 4).next_multiple_of(8);
        for room in [0, 5, total - 1, total, total + 9] {
            all.push(Writing { case: Case::FrameWrite { payload: vec![0x5A; n], counters: ZERO }, room });
        }
    }
    for n in [0, 1, 1023, 1024, 1025, 1026, 5000] {
        for room in [0, 1, 18 + n, 19 + n, 20 + n, 40 + n] {
            all.push(Writing { case: Case::Fail { recipient: 1, reason: 2, text: vec![0xFF; n] }, room });
        }
    }
    all.extend(rooms());
    all.extend(cookies(&spoilt));
    all.extend(counts());
    all.extend(shows());
    all
}

/// an `out` of every length around a short writer's need
fn rooms() -> Vec<Beyond> {
    let mut all = Vec::new();
    for n in 0..=40usize {
        for room in 0..=64 {
            all.push(Writing { case: Case::FrameWrite { payload: vec![n as u8; n], counters: ZERO }, room });
        }
    }
    for room in 0..=64 {
        all.push(Writing { case: Case::UnknownType { recipient: 7 }, room });
        all.push(Writing { case: Case::Fail { recipient: 7, reason: 1, text: b"no".to_vec() }, room });
    }
    let mut short = full(Side::Client);
    (short.kex, short.key, short.cipher, short.mac) = (vec![1], vec![0], vec![10], vec![4]);
    for tables in [short, full(Side::Client), full(Side::Server)] {
        for room in 0..=1024 {
            all.push(Writing { case: Case::WriteKex { tables: tables.clone(), cookie: [3; 16] }, room });
        }
    }
    all
}

/// tables that are refused, read and written with
pub fn tables(t: Tables) -> Vec<Beyond> {
    let payload = plain_fields().payload();
    vec![
        Reading(Case::ReadKex { tables: t.clone(), strict_agreed: false, payload }),
        Writing { case: Case::WriteKex { tables: t.clone(), cookie: [5; 16] }, room: 0 },
        Writing { case: Case::WriteKex { tables: t, cookie: [5; 16] }, room: 4096 },
    ]
}

fn cookies(spoilt: &Tables) -> Vec<Beyond> {
    let mut all = Vec::new();
    for tables in [full(Side::Client), full(Side::Server), spoilt.clone()] {
        for n in [0, 1, 15, 16, 17, 32] {
            for room in [0, 4096] {
                all.push(Cookie { tables: tables.clone(), cookie: vec![9; n], room });
            }
        }
    }
    all
}

/// the writer's byte count at its end (X1)
fn counts() -> Vec<Beyond> {
    let mut all = Vec::new();
    for n in 0..=40usize {
        for left in 0..=41u64 {
            let counters = Counters { seqn: u32::MAX, bytes: u64::MAX - left };
            all.push(Writing { case: Case::FrameWrite { payload: vec![1; n], counters }, room: 64 });
        }
    }
    all
}

fn shows() -> Vec<Beyond> {
    let edges = [0, 1, 2, 3, 4, 5, 6, 7, usize::MAX / 2, usize::MAX / 2 + 1, usize::MAX - 1, usize::MAX];
    let mut all = Vec::new();
    for n in 0..=5usize {
        for start in edges {
            for len in edges {
                all.push(Show { bytes: (0..n as u8).collect(), start, len });
            }
        }
    }
    all
}

/// spoilt tables, read and written; cookies
pub fn kex(r: &mut Rng) -> Beyond {
    let side = side(r);
    let t = crate::tables::spoilt(r, side);
    match r.below(8) {
        0..4 => {
            let payload = if r.once_in(8) { vec![0; r.below(20)] } else { crate::kex::fields(r).payload() };
            Reading(Case::ReadKex { tables: t, strict_agreed: r.once_in(2), payload })
        }
        4..7 => Writing { case: Case::WriteKex { tables: t, cookie: cookie(r) }, room: r.below(2000) },
        _ => {
            let n = *r.of(&[0, 1, 15, 16, 16, 17, 100]);
            let tables = if r.once_in(4) { t } else { crate::kex::tables(r, side) };
            Cookie { tables, cookie: r.bytes(n), room: if r.once_in(4) { r.below(1000) } else { 4096 } }
        }
    }
}

/// texts too long, counts at their end, an `out` of any length, places
pub fn others(r: &mut Rng) -> Beyond {
    match r.below(4) {
        0 => {
            let n = if r.once_in(2) { 1015 + r.below(20) } else { r.below(3000) };
            let case = Case::Fail { recipient: r.number(), reason: r.byte(), text: vec![r.byte(); n] };
            Writing { case, room: 9 + n + r.below(20) }
        }
        1 => {
            let n = r.below(300);
            let counters = Counters { seqn: r.number(), bytes: u64::MAX - r.below(400) as u64 };
            Writing { case: Case::FrameWrite { payload: r.bytes(n), counters }, room: n + 5 + r.below(20) }
        }
        2 => {
            let n = r.below(60);
            Writing { case: Case::UnknownType { recipient: r.number() }, room: n }
        }
        _ => {
            let n = r.below(50);
            let place = |r: &mut Rng| if r.once_in(6) { r.word() as usize } else { r.below(n + 3) };
            Show { start: place(r), len: place(r), bytes: r.bytes(n) }
        }
    }
}
