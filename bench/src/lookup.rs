//! A name's number, against `==` over the kind's names one by one.

use crate::case::{Case, bytes, lent};
use crate::library;
use std::hint::black_box;

/// Kinds in the header's order, each with a name that peers list and we do not know.
const KINDS: [(&str, &str); 6] = [
    ("kex", "diffie-hellman-group14-sha1"),
    ("key", "ssh-dss"),
    ("certificate", "ssh-dss-cert-v01@openssh.com"),
    ("cipher", "3des-cbc"),
    ("mac", "hmac-sha1"),
    ("compression", "zlib@openssh.com"),
];

#[inline(never)]
fn linear(table: &[&str], name: &[u8]) -> Option<usize> {
    table.iter().position(|entry| entry.as_bytes() == name)
}

fn agree(kind: u8, table: &[&str], name: &[u8]) {
    assert_eq!(ours::lookup(kind, name).map(|found| found.map(usize::from)), Ok(linear(table, name)));
}

fn lookup(case: String, kind: u8, table: &'static [&'static str], name: &str) -> Case {
    let name = bytes(name.as_bytes().to_vec());
    agree(kind, table, name);
    Case::new(case, move || library::lookup(kind, name)).against("linear ==", Some(2.0), move || linear(table, name))
}

fn each(case: String, kind: u8, table: &'static [&'static str]) -> Case {
    table.iter().for_each(|name| agree(kind, table, name.as_bytes()));
    let ours = move || {
        for name in table {
            black_box(library::lookup(kind, name.as_bytes()));
        }
    };
    Case::new(case, ours).against("linear ==", Some(2.0), move || {
        for name in table {
            black_box(linear(table, name.as_bytes()));
        }
    })
}

fn spelling(kind: u8, number: u8) -> Option<&'static str> {
    let mut out = [0; 64];
    let len = ours::spelling(kind, number, &mut out).ok()?;
    Some(lent(String::from_utf8(out[..len].to_vec()).expect("a name is ASCII").into_boxed_str()))
}

fn table(kind: u8) -> &'static [&'static str] {
    lent((0..).map_while(|number| spelling(kind, number)).collect::<Vec<&str>>().into_boxed_slice())
}

/// A name of the same length that differs in its last byte.
fn off(name: &str) -> String {
    [&name[..name.len() - 1], "?"].concat()
}

pub fn lookups() -> Vec<Case> {
    let mut cases = Vec::new();
    for (kind, (what, unknown)) in KINDS.into_iter().enumerate() {
        let table = table(kind as u8);
        let (first, middle, last) = (table[0], table[table.len() / 2], table[table.len() - 1]);
        let off = off(last);
        for (place, name) in
            [("first", first), ("middle", middle), ("last", last), ("unknown", unknown), ("last, a byte off", &off)]
        {
            if table.len() > 1 || !matches!(place, "middle" | "last") {
                cases.push(lookup(format!("{what}: {place} ({name})"), kind as u8, table, name));
            }
        }
        cases.push(each(format!("{what}: each, added up"), kind as u8, table));
    }
    cases
}
