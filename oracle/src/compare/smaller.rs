//! The same question with something taken away.

use cases::Case;
use cases::beyond::Beyond;
use cases::kex::Fields;
use plain::Tables;

/// The bytes without a part, ever smaller ones; of long bytes only so many, since each is a copy.
fn cuts(bytes: &[u8]) -> Vec<Vec<u8>> {
    let mut all = Vec::new();
    let mut n = bytes.len();
    while n > 0 && bytes.len() / n * bytes.len() < 16_000_000 {
        for at in (0..bytes.len()).step_by(n) {
            all.push([&bytes[..at], bytes.get(at + n..).unwrap_or(&[])].concat());
        }
        n /= 2;
    }
    all
}

fn less(n: usize) -> Vec<usize> {
    if n == 0 { vec![] } else { vec![0, n / 2, n - 1] }
}

pub fn fewer_beyond(beyond: &Beyond) -> Vec<Beyond> {
    match beyond {
        Beyond::Reading(case) => fewer_in(case).into_iter().map(Beyond::Reading).collect(),
        Beyond::Places(case) => fewer_in(case).into_iter().map(Beyond::Places).collect(),
        Beyond::Offset(case) => fewer_in(case).into_iter().map(Beyond::Offset).collect(),
        Beyond::Writing { case, room } => {
            let rooms = less(*room).into_iter().map(|room| Beyond::Writing { case: case.clone(), room });
            let cases = fewer_in(case).into_iter().map(|case| Beyond::Writing { case, room: *room });
            rooms.chain(cases).collect()
        }
        Beyond::Cookie { tables, cookie, room } => {
            let made = |tables: &Tables, cookie: &[u8], room| {
                Beyond::Cookie { tables: tables.clone(), cookie: cookie.to_vec(), room }
            };
            let mut all: Vec<Beyond> = less(*room).into_iter().map(|room| made(tables, cookie, room)).collect();
            all.extend(cuts(cookie).iter().map(|cookie| made(tables, cookie, *room)));
            all.extend(fewer(tables).iter().map(|tables| made(tables, cookie, *room)));
            all
        }
        Beyond::Show { bytes, start, len } => {
            let made = |bytes: &[u8], start, len| Beyond::Show { bytes: bytes.to_vec(), start, len };
            let mut all: Vec<Beyond> = cuts(bytes).iter().map(|bytes| made(bytes, *start, *len)).collect();
            all.extend(less(*start).into_iter().map(|start| made(bytes, start, *len)));
            all.extend(less(*len).into_iter().map(|len| made(bytes, *start, len)));
            all
        }
    }
}

pub fn fewer_in(case: &Case) -> Vec<Case> {
    let mut all = Vec::new();
    match case {
        Case::ReadKex { tables, strict_agreed, payload } => {
            for t in fewer(tables) {
                all.push(Case::ReadKex { tables: t, strict_agreed: *strict_agreed, payload: payload.clone() });
            }
            for p in shorter(payload) {
                all.push(Case::ReadKex { tables: tables.clone(), strict_agreed: *strict_agreed, payload: p });
            }
        }
        Case::WriteKex { tables, cookie } => {
            all.extend(fewer(tables).into_iter().map(|tables| Case::WriteKex { tables, cookie: *cookie }));
        }
        Case::FrameRead { bytes, counters } => {
            all.extend(cuts(bytes).into_iter().map(|bytes| Case::FrameRead { bytes, counters: *counters }));
        }
        Case::FrameWrite { payload, counters } => {
            all.extend(cuts(payload).into_iter().map(|payload| Case::FrameWrite { payload, counters: *counters }));
        }
        Case::Open { body } => all.extend(cuts(body).into_iter().map(|body| Case::Open { body })),
        Case::Confirmation { body } => all.extend(cuts(body).into_iter().map(|body| Case::Confirmation { body })),
        Case::Fail { recipient, reason, text } => {
            let made = |text| Case::Fail { recipient: *recipient, reason: *reason, text };
            all.extend(cuts(text).into_iter().map(made));
        }
        Case::UnknownType { .. } => {}
    }
    all
}

/// a payload with less in a field, its lengths kept right; one that is not whole is cut anywhere
fn shorter(payload: &[u8]) -> Vec<Vec<u8>> {
    let Some(f) = Fields::of(payload) else { return cuts(payload) };
    let with = |i: usize, list: Vec<u8>| {
        let mut f = f.clone();
        f.lists[i] = list;
        f.payload()
    };
    (0..10).flat_map(|i| cuts(&f.lists[i]).into_iter().map(move |list| (i, list))).map(|(i, list)| with(i, list)).collect()
}

fn fewer(t: &Tables) -> Vec<Tables> {
    let mut all = Vec::new();
    let lists: [fn(&mut Tables) -> &mut Vec<u8>; 6] = [
        |t| &mut t.kex,
        |t| &mut t.key,
        |t| &mut t.certificate,
        |t| &mut t.cipher,
        |t| &mut t.mac,
        |t| &mut t.compression,
    ];
    for list in lists {
        for i in 0..list(&mut t.clone()).len() {
            let mut c = t.clone();
            list(&mut c).remove(i);
            all.push(c);
        }
    }
    for i in 0..t.key_kinds.len().min(t.key_ids.len()) {
        let mut c = t.clone();
        c.key_kinds.remove(i);
        c.key_ids.remove(i);
        all.push(c);
    }
    for i in 0..t.cert_kinds.len().min(t.cert_ids.len()) {
        let mut c = t.clone();
        c.cert_kinds.remove(i);
        c.cert_ids.remove(i);
        all.push(c);
    }
    all
}
