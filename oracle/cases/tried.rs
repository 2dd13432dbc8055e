//! Document 01's tried bytes as cases with the answers that it gives, C1's correction of P12 among them.

use crate::{Answer, Case};
use crate::kex::{full, plain_fields};
use plain::{Counters, Read, Side, Tables};
use russh::door;

const ZERO: Counters = Counters { seqn: 0, bytes: 0 };

/// A case of document 01, and whether an answer is the one that it gives.
pub struct Tried {
    pub what: &'static str,
    pub case: Case,
    pub says: Box<dyn Fn(&Answer) -> bool>,
}

fn tries(what: &'static str, case: Case, says: impl Fn(&Answer) -> bool + 'static) -> Tried {
    Tried { what, case, says: Box::new(says) }
}

fn kex(t: Tables, change: impl Fn(&mut crate::kex::Fields)) -> Case {
    let mut f = plain_fields();
    change(&mut f);
    Case::ReadKex { tables: t, strict_agreed: false, payload: f.payload() }
}

fn frames(all: &mut Vec<Tried>) {
    for (n, padding, total) in [(0usize, 11u8, 16), (7, 4, 16), (8, 11, 24)] {
        all.push(tries("P1 to P3", Case::FrameWrite { payload: vec![9; n], counters: ZERO }, move |a| {
            matches!(a, Answer::Sealed(Ok((packet, _))) if packet[4] == padding && packet.len() == total)
        }));
    }
    let none = |end, taken| Ok(Read::Packet { payload: vec![], end, taken, counters: Counters { seqn: 1, bytes: 0 } });
    for (bytes, expected) in [
        (&[0, 0, 0, 1, 1][..], none(4, 5)),
        (&[0, 0, 0, 1, 2], Err(7.into())),
        (&[0, 0, 0, 0], none(4, 4)),
        (&[0, 4, 0, 0x21], Ok(Read::Need(262181))),
        (&[0, 4, 0, 0x22], Err(4.into())),
    ] {
        let case = Case::FrameRead { bytes: bytes.to_vec(), counters: ZERO };
        all.push(tries("P4 to P8", case, move |a| Answer::Read(expected.clone()).given_by(a)));
    }
}

fn channels(all: &mut Vec<Tried>) {
    let session = [&[0, 0, 0, 7][..], b"session", &[0, 0, 0, 0, 0, 32, 0, 0, 0, 0, 128, 0]].concat();
    let more = [&session[..], &[0]].concat();
    let mut nothing = more.clone();
    nothing[21] = 0;
    for (body, expected) in [(session, 0), (more, 5), (nothing, 6)] {
        all.push(tries("P10", Case::Open { body }, move |a| a.number() == expected));
    }
}

fn choices(all: &mut Vec<Tried>) {
    for (cipher, expected) in [("aes128-ctr", 13), ("chacha20-poly1305@openssh.com", 0)] {
        let mut t = full(Side::Server);
        t.mac = vec![4, 0];
        let case = kex(t, |f| {
            f.lists[2] = cipher.as_bytes().to_vec();
            f.lists[4] = b"none,hmac-sha2-256".to_vec();
            f.lists[5] = b"none,hmac-sha2-256".to_vec();
        });
        all.push(tries("P11", case, move |a| match a {
            Answer::Names(Ok(n)) => expected == 0 && n.client_mac == 0 && n.server_mac == 0,
            a => a.number() == expected,
        }));
    }
    // P12; the last list ignores the guess too (C1), and the one beside it does not
    for (list, ignores) in
        [("foo,curve25519-sha256", true), ("ext-info-c,curve25519-sha256", true), ("curve25519-sha256,ext-info-c", false)]
    {
        let mut t = full(Side::Server);
        t.kex = vec![1];
        let case = kex(t, |f| {
            f.lists[0] = list.as_bytes().to_vec();
            f.follows = 1;
        });
        all.push(tries("P12", case, move |a| matches!(a, Answer::Names(Ok(n)) if n.ignore_guessed == ignores)));
    }
}

/// P1 to P12 and the examples after them
pub fn document() -> Vec<Tried> {
    let mut all = Vec::new();
    frames(&mut all);
    for (n, expected) in [(16, 6), (17, 2)] {
        let case = Case::ReadKex { tables: full(Side::Client), strict_agreed: false, payload: vec![0; n] };
        all.push(tries("P9", case, move |a| a.number() == expected));
    }
    channels(&mut all);
    choices(&mut all);
    for (cipher, payload, padding, total) in [(10, 182, 5, 192), (2, 144, 11, 160)] {
        let mut t = full(Side::Client);
        (t.kex, t.key, t.cipher, t.mac) = (vec![1], vec![0], vec![cipher], vec![4]);
        all.push(tries("the two KEXINITs", Case::WriteKex { tables: t, cookie: [7; 16] }, move |a| {
            let Answer::Bytes(Ok(written)) = a else { return false };
            let (packet, _) = door::frame_write(written, ZERO);
            written.len() == payload && packet[4] == padding && packet.len() == total
        }));
    }
    all.push(tries("the failure for an unknown type", Case::UnknownType { recipient: 0 }, |a| {
        matches!(a, Answer::Bytes(Ok(written)) if written.len() == 39)
    }));
    all
}

/// The same cases, the oracle's answers being document 01's.
pub fn tried() -> Vec<Case> {
    let judged = |t: Tried| {
        assert!((t.says)(&t.case.oracle()), "document 01 and the oracle differ on {}", t.what);
        t.case
    };
    assert_eq!(door::frame_write(&vec![0; 262167], ZERO).0.len(), 262176, "document 01's largest payload");
    document().into_iter().map(judged).collect()
}
