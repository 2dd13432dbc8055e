//! Channel opening, confirmation and failure.

use crate::case::{Case, bytes, lent, same};
use crate::library;
use russh::door::{self, oracle};

fn string(text: &[u8]) -> Vec<u8> {
    [&(text.len() as u32).to_be_bytes(), text].concat()
}

/// A body's four first fields: type, sender, window, maximum packet size.
pub fn opening(typ: &[u8]) -> Vec<u8> {
    [string(typ), vec![0, 0, 0, 5, 0, 32, 0, 0, 0, 0, 128, 0]].concat()
}

/// Ours on the body, after both gave the same answer.
pub fn open(name: impl Into<String>, body: &'static [u8]) -> Case {
    let answer = oracle::open(body);
    same(ours::open(body).map(|(opening, _)| opening), &answer);
    assert_eq!(door::open(body).is_ok(), answer.is_ok());
    Case::new(name, move || library::open(body))
}

pub fn opens() -> Vec<Case> {
    let port = 22u32.to_be_bytes();
    let tcp = [string(b"depot.example.org"), port.into(), string(b"192.0.2.7"), port.into()].concat();
    let socket = string(b"/run/user/1000/agent.sock");
    [
        ("session", vec![]),
        ("x11", [string(b"192.0.2.7"), port.into()].concat()),
        ("direct-tcpip", tcp.clone()),
        ("direct-streamlocal@openssh.com", [socket.clone(), string(b""), port.into()].concat()),
        ("forwarded-tcpip", tcp),
        ("forwarded-streamlocal@openssh.com", [socket, string(b"")].concat()),
        ("auth-agent@openssh.com", vec![]),
        ("tun@openssh.com", vec![0, 0, 0, 1, 0, 0, 0, 0]),
    ]
    .into_iter()
    .map(|(typ, fields)| {
        let body = bytes([opening(typ.as_bytes()), fields].concat());
        let name = if typ.starts_with("tun") { "an unknown type (tun@openssh.com)" } else { typ };
        open(name, body).against("russh", Some(1.0), move || door::open(body))
    })
    .collect()
}

fn confirmation() -> Case {
    let body = bytes([[0, 0, 0, 1], [0, 0, 0, 2], [0, 32, 0, 0], [0, 0, 128, 0]].concat());
    same(ours::confirmation(body), &oracle::confirmation(body));
    Case::new("confirmation", move || library::confirmation(body))
        .against("russh", None, move || door::confirmation(body))
}

fn failure() -> Case {
    let text: &'static [u8] = b"connect to 192.0.2.7 port 22: refused";
    let mut out = vec![0; 19 + text.len()];
    assert_eq!(ours::fail(5, 2, text, &mut out), Ok(out.len()));
    let message = lent(door::session(5).into());
    let mut theirs = Vec::with_capacity(out.len());
    door::fail(message, 2, text, &mut theirs).expect("a failure can be written");
    assert_eq!(out, theirs);

    Case::new("failure, text of 37 bytes", move || library::fail(5, 2, text, &mut out))
        .against("russh", None, move || door::fail(message, 2, text, &mut theirs))
}

fn unknown_type() -> Case {
    let mut out = vec![0; 39];
    assert_eq!(ours::unknown_type(5, &mut out), Ok(out.len()));
    let message = lent(door::session(5).into());
    let mut theirs = Vec::with_capacity(out.len());
    door::unknown_type(message, &mut theirs).expect("a failure can be written");
    assert_eq!(out, theirs);

    Case::new("failure for an unknown type", move || library::unknown_type(5, &mut out))
        .against("russh", None, move || door::unknown_type(message, &mut theirs))
}

pub fn answers() -> Vec<Case> {
    vec![confirmation(), failure(), unknown_type()]
}
