//! Local tables at their limits, from both sides; and spoilt ones, which number 9 is for.

use crate::kex::{full, tables};
use crate::rng::Rng;
use plain::{Side, Tables};

/// how many names each of the six lists can choose from
const COUNTS: [u8; 6] = [13, 7, 7, 11, 5, 1];

fn list(t: &mut Tables, i: usize) -> &mut Vec<u8> {
    match i {
        0 => &mut t.kex,
        1 => &mut t.key,
        2 => &mut t.certificate,
        3 => &mut t.cipher,
        4 => &mut t.mac,
        _ => &mut t.compression,
    }
}

/// key rows, or certificate rows
fn set_rows(t: &mut Tables, certificates: bool, kinds: Vec<u8>, ids: Vec<u32>) {
    if certificates {
        (t.cert_kinds, t.cert_ids) = (kinds, ids);
    } else {
        (t.key_kinds, t.key_ids) = (kinds, ids);
    }
}

/// Tables at a limit and one past it, and whether they are inside: what is inside the Rust can be asked.
pub fn limits() -> Vec<(bool, Tables)> {
    let mut all = Vec::new();
    for side in [Side::Client, Side::Server] {
        for (i, count) in COUNTS.into_iter().enumerate() {
            for n in [0usize, 1, 15, 16, 17, 18, 255] {
                let mut t = full(side);
                *list(&mut t, i) = (0..n).map(|k| (k % count as usize) as u8).collect();
                all.push((n <= 16, t));
            }
            for number in [0, count - 1, count, count + 1, 255] {
                for before in [0, 15] {
                    let mut t = full(side);
                    *list(&mut t, i) = vec![0; before];
                    list(&mut t, i).push(number);
                    all.push((number < count, t));
                }
            }
        }
        for certificates in [false, true] {
            for n in [0usize, 1, 7, 8, 9, 10, 255] {
                let mut t = full(side);
                let rows = (0..n).map(|k| k as u8 % 5).collect();
                set_rows(&mut t, certificates, rows, (0..n).map(|k| k as u32).map(|k| k + 100).collect());
                all.push((n == 0 || side == Side::Server && n <= 8, t));
            }
            for kind in [0, 4, 5, 6, 255] {
                let mut t = full(side);
                set_rows(&mut t, certificates, vec![kind], vec![77]);
                all.push((side == Side::Server && kind < 5, t));
            }
            for (kinds, ids) in [(1, 0), (0, 1), (2, 1), (1, 2), (8, 7), (7, 8), (8, 9), (9, 8)] {
                let mut t = full(side);
                set_rows(&mut t, certificates, vec![0; kinds], vec![77; ids]);
                all.push((false, t));
            }
        }
    }
    all.extend(identities());
    all
}

/// two rows of equal identity: of one kind and of two, within the keys, within the certificates, and across
fn identities() -> Vec<(bool, Tables)> {
    let mut all = Vec::new();
    for first in 0..5u8 {
        for second in 0..5u8 {
            for id in [0u32, 1, 0xFFFF_FFFF] {
                for (keys, certificates) in [(2, 0), (0, 2), (1, 1), (3, 0), (2, 2)] {
                    let mut t = full(Side::Server);
                    let (mut kinds, mut ids) = (vec![first; keys + certificates], vec![id; keys + certificates]);
                    *kinds.last_mut().expect("two rows or more") = second;
                    t.cert_kinds = kinds.split_off(keys);
                    t.cert_ids = ids.split_off(keys);
                    (t.key_kinds, t.key_ids) = (kinds, ids);
                    all.push((first == second, t));
                }
            }
        }
    }
    all
}

/// Valid tables with one or two things out of range.
pub fn spoilt(r: &mut Rng, side: Side) -> Tables {
    let mut t = tables(r, side);
    for _ in 0..1 + r.below(2) {
        spoil(r, &mut t);
    }
    t
}

fn spoil(r: &mut Rng, t: &mut Tables) {
    let i = r.below(6);
    let certificates = r.once_in(2);
    match r.below(7) {
        0 => list(t, i).resize(17 + r.below(3), 0),
        1 | 2 => {
            let at = r.below(list(t, i).len() + 1);
            let number = COUNTS[i] + r.below(256 - COUNTS[i] as usize) as u8;
            list(t, i).insert(at, number);
        }
        3 => {
            let n = 9 + r.below(3);
            set_rows(t, certificates, vec![0; n], vec![7; n]);
        }
        4 => set_rows(t, certificates, vec![5 + r.below(251) as u8], vec![0xABCD]),
        5 => {
            let column = match (certificates, r.once_in(2)) {
                (false, true) => &mut t.key_kinds,
                (true, true) => &mut t.cert_kinds,
                (false, false) => return t.key_ids.push(0xABCD),
                (true, false) => return t.cert_ids.push(0xABCD),
            };
            column.push(0);
        }
        _ => {
            let (a, b) = (r.below(5) as u8, r.below(5) as u8);
            let id = r.number();
            (t.key_kinds, t.key_ids) = (vec![a], vec![id]);
            (t.cert_kinds, t.cert_ids) = (vec![b], vec![id]);
        }
    }
}
