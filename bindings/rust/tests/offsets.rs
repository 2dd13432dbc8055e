//! Where a reader refuses: number and offset, by hand from the lengths of the fields. Those of document 01's KEXINIT of 182
//! bytes start at 17, 38, 53, 86, 119, 136, 153, 161, 169, 173, 177 and 178.

mod peer;

use harupesat::{CipherName, CompressionName, Counters, ReadRefusal, Tables};
use harupesat::{read_confirmation, read_open, read_packet, show};
use peer::{Peer, client, server, string};
use std::fmt::Debug;

const CHACHA20: CipherName = CipherName::CHACHA20_POLY1305;
const AES128_CTR: CipherName = CipherName::AES128_CTR;

fn refused<T: Debug>(answer: Result<T, ReadRefusal>) -> (u8, usize) {
    let refusal = answer.unwrap_err();
    (refusal.number(), refusal.offset)
}

/// Both sides refuse a payload alike.
fn reads(cipher: CipherName, payload: &[u8]) -> (u8, usize) {
    let (by_client, by_server) = (client(cipher).read_kex(false, payload), server(cipher).read_kex(false, payload));
    assert_eq!(by_client, by_server);
    refused(by_client)
}

fn peer() -> Peer {
    Peer::new(CHACHA20)
}

/// The KEXINIT with its byte at this place turned to FF.
fn spoilt(peer: Peer, place: usize) -> Vec<u8> {
    let mut payload = peer.payload();
    payload[place] = 0xFF;
    payload
}

#[test]
fn a_kexinit_cut_and_longer() {
    let longer = [&peer().payload()[..], &[0]].concat();
    for (len, number, offset) in [
        (0, 6, 0),
        (16, 6, 0),
        (17, 2, 17),
        (20, 2, 17),
        (21, 2, 17),
        (37, 2, 17),
        (38, 2, 38),
        (177, 2, 177),
        (178, 2, 178),
        (181, 2, 178),
        (183, 5, 182),
    ] {
        assert_eq!(reads(CHACHA20, &longer[..len]), (number, offset), "{len} bytes");
    }
    assert!(client(CHACHA20).read_kex(false, &longer[..182]).is_ok());
    assert_eq!(reads(CHACHA20, &vec![0; 262_177]), (1, 0));
}

#[test]
fn a_list() {
    for (peer, number, offset) in [
        (peer().with_kex("foo"), 10, 17),
        (peer().with_kex("a,,b"), 3, 17),
        (peer().with_kex(&"a".repeat(16_385)), 2, 17),
        (peer().with_key("foo"), 11, 38),
        (Peer { cipher: ["foo".into(), CHACHA20.to_string()], ..peer() }, 12, 53),
        (peer().with_compression("zlib"), 14, 153),
        (Peer { compression: ["none".into(), "zlib".into()], ..peer() }, 14, 161),
    ] {
        assert_eq!(reads(CHACHA20, &peer.payload()), (number, offset), "{peer:?}");
    }
}

/// The direction that failed, whichever of its two lists comes first.
#[test]
fn a_mac_that_is_needed() {
    let [none, shared] = ["none", "hmac-sha2-256"].map(String::from);
    for (mac, offset) in [([none.clone(), none.clone()], 81), ([none.clone(), shared.clone()], 81), ([shared, none], 98)] {
        assert_eq!(reads(AES128_CTR, &Peer { mac, ..Peer::new(AES128_CTR) }.payload()), (13, offset));
    }
}

/// The first byte of the field's length, and not the byte that offends.
#[test]
fn a_byte_that_no_text_has() {
    let language = |first: &str, second: &str| Peer { language: [first.into(), second.into()], ..peer() };
    for (peer, place, offset) in [
        (peer(), 21, 17),
        (peer(), 37, 17),
        (peer(), 90, 86),
        (peer(), 118, 86),
        (peer(), 123, 119),
        (peer(), 140, 136),
        (peer(), 152, 136),
        (language("x", ""), 173, 169),
        (language("", "x"), 177, 173),
    ] {
        assert_eq!(reads(CHACHA20, &spoilt(peer, place)), (3, offset), "byte {place}");
    }
}

#[test]
fn tables() {
    let tables = Tables::client().compression(&[CompressionName::NONE; 17]);
    assert_eq!(refused(tables.read_kex(false, &peer().payload())), (9, 0));
}

#[test]
fn an_opening() {
    let session = [&string(b"session")[..], &[0; 4], &[0, 32, 0, 0], &[0, 0, 128, 0], &[0]].concat();
    let mut nothing = session.clone();
    nothing[19..23].fill(0);
    assert_eq!(refused(read_open(&[])), (2, 0));
    assert_eq!(refused(read_open(&session[..22])), (2, 19));
    assert!(read_open(&session[..23]).is_ok());
    assert_eq!(refused(read_open(&session)), (5, 23));
    assert_eq!(refused(read_open(&nothing)), (6, 19));
    assert_eq!(refused(read_open(&vec![0; 262_176])), (1, 0));
}

fn direct_tcpip(host: &[u8], originator: &[u8]) -> Vec<u8> {
    let offer = [0, 0, 0, 1, 0, 0, 0, 2, 0, 0, 0, 3];
    let fields = [&string(host)[..], &[0, 0, 0, 22], &string(originator), &[0, 0, 4, 210]].concat();
    [&string(b"direct-tcpip")[..], &offer, &fields].concat()
}

#[test]
fn an_opening_with_addresses() {
    let whole = direct_tcpip(b"localhost", b"10.0.0.1");
    assert_eq!(whole.len(), 61);
    assert!(read_open(&whole).is_ok());
    assert_eq!(refused(read_open(&direct_tcpip(b"\xFF", b"10.0.0.1"))), (3, 28));
    assert_eq!(refused(read_open(&direct_tcpip(b"localhost", b"\xFF"))), (3, 45));
    assert_eq!(refused(read_open(&whole[..60])), (2, 57));
    assert_eq!(refused(read_open(&[&whole[..], &[0]].concat())), (5, 61));
}

#[test]
fn a_confirmation_and_a_place() {
    assert_eq!(refused(read_confirmation(&[0; 15])), (2, 12));
    assert_eq!(refused(read_confirmation(&[0; 16])), (6, 12));
    assert_eq!(refused(show(b"depot", 5, 1)), (2, 0));
}

#[test]
fn a_packet() {
    assert_eq!(refused(read_packet(&[0, 4, 0, 0x22], Counters::default())), (4, 0));
    assert_eq!(refused(read_packet(&[0, 0, 0, 1, 2], Counters::default())), (7, 4));
}
