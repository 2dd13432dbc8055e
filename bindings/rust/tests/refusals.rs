//! Every number, what it says, and which call gives it; what reads gives the offset too.

mod peer;

use harupesat::{CipherName, CompressionName, Counters, KexName, KeyKind, MacName, ReadRefusal, Refusal, Tables};
use harupesat::{fail, read_confirmation, read_open, read_packet, show, unknown_type, write_packet};
use peer::{Peer, client, field_at, server, string};
use std::error::Error;

const CHACHA20: CipherName = CipherName::CHACHA20_POLY1305;

fn reads(peer: Peer) -> Option<ReadRefusal> {
    client(CHACHA20).read_kex(false, &peer.payload()).err()
}

fn peer() -> Peer {
    Peer::new(CHACHA20)
}

#[test]
fn numbers_and_meanings() {
    let all: Vec<Refusal> = (0..=u8::MAX).filter_map(Refusal::from_number).collect();
    assert_eq!(all.iter().map(|refusal| refusal.number()).collect::<Vec<_>>(), (1..=14).collect::<Vec<_>>());
    for refusal in all {
        let (by_itself, at) = (refusal.to_string(), refusal.at(7).to_string());
        let meaning = by_itself.strip_prefix(&format!("refused with {}: ", refusal.number())).expect("its number first");
        assert_eq!(at, format!("refused with {} at byte 7: {meaning}", refusal.number()));
    }
}

/// What reads says where, and what writes does not.
#[test]
fn shown() {
    let cut = client(CHACHA20).read_kex(false, &peer().payload()[..38]).unwrap_err();
    assert_eq!((cut.number(), cut.refusal, cut.offset), (2, Refusal::PastEnd, 38));
    let read: Box<dyn Error> = Box::new(cut);
    assert_eq!(read.to_string(), "refused with 2 at byte 38: a field runs past the end");
    let written: Box<dyn Error> = Box::new(unknown_type(1, &mut []).unwrap_err());
    assert_eq!(written.to_string(), "refused with 8: the lent output is too short");
}

#[test]
fn too_long_1() {
    assert_eq!(client(CHACHA20).read_kex(false, &vec![0; 262_177]), Err(Refusal::TooLong.at(0)));
    assert_eq!(read_open(&vec![0; 262_176]), Err(Refusal::TooLong.at(0)));
    assert_eq!(read_confirmation(&vec![0; 262_176]), Err(Refusal::TooLong.at(0)));
    assert_eq!(fail(1, 2, &[b'x'; 1025], &mut []), Err(Refusal::TooLong));
}

#[test]
fn past_end_2() {
    let payload = peer().payload();
    let starts = [17, 38, 53, 86, 119, 136, 153, 161, 169, 173, 177, 178];
    for cut in 17..payload.len() {
        let refused = Err(Refusal::PastEnd.at(field_at(&starts, cut)));
        assert_eq!(client(CHACHA20).read_kex(false, &payload[..cut]), refused, "{cut} bytes");
    }
    assert_eq!(reads(peer().with_kex(&"a,".repeat(1026))), Some(Refusal::PastEnd.at(17)));
    assert_eq!(reads(peer().with_kex(&"a".repeat(16_385))), Some(Refusal::PastEnd.at(17)));
    for cut in 0..16 {
        assert_eq!(read_confirmation(&[1; 16][..cut]), Err(Refusal::PastEnd.at(cut / 4 * 4)), "{cut} bytes");
    }
    assert_eq!(show(b"depot", 3, 3), Err(Refusal::PastEnd.at(0)));
    assert_eq!(show(b"depot", 1, usize::MAX), Err(Refusal::PastEnd.at(0)));
    assert_eq!(show(b"depot", 3, 2), Ok(&b"ot"[..]));
    assert_eq!(show(b"depot", 5, 0), Ok(&b""[..]));
}

#[test]
fn not_utf8_3() {
    assert_eq!(reads(peer().with_kex("curve25519-sha256,é")), Some(Refusal::NotUtf8.at(17)));
    assert_eq!(reads(peer().with_key(",ssh-ed25519")), Some(Refusal::NotUtf8.at(38)));
    assert_eq!(read_open(&string(b"\xC0\xAF")), Err(Refusal::NotUtf8.at(0)));
}

#[test]
fn packet_size_4_and_padding_7() {
    assert_eq!(read_packet(&[0xFF; 4], Counters::default()), Err(Refusal::PacketSize.at(0)));
    assert_eq!(write_packet(&vec![0; 262_168], Counters::default(), &mut []), Err(Refusal::PacketSize));
    assert_eq!(read_packet(&[0, 0, 0, 2, 3, 0], Counters::default()), Err(Refusal::Padding.at(4)));
}

#[test]
fn trailing_5() {
    let payload = [&peer().payload()[..], &[0]].concat();
    assert_eq!(client(CHACHA20).read_kex(false, &payload), Err(Refusal::Trailing.at(182)));
}

#[test]
fn inconsistent_6() {
    assert_eq!(client(CHACHA20).read_kex(false, &[]), Err(Refusal::Inconsistent.at(0)));
    assert_eq!(read_confirmation(&[0; 16]), Err(Refusal::Inconsistent.at(12)));
}

#[test]
fn no_room_8() {
    assert_eq!(client(CHACHA20).write_kex(&[0; 16], &mut [0; 181]), Err(Refusal::NoRoom));
    assert_eq!(write_packet(b"depot", Counters::default(), &mut [0; 15]), Err(Refusal::NoRoom));
    assert_eq!(fail(1, 2, b"no", &mut [0; 20]), Err(Refusal::NoRoom));
    assert_eq!(unknown_type(1, &mut [0; 38]), Err(Refusal::NoRoom));
}

#[test]
fn bad_table_9() {
    let bad = |tables: Tables| {
        assert_eq!(tables.write_kex(&[0; 16], &mut [0; 4096]), Err(Refusal::BadTable));
        assert_eq!(tables.read_kex(false, &[]), Err(Refusal::BadTable.at(0)));
    };
    let many = |n: u32| (0..n).fold(Tables::server(), |tables, id| tables.key_row(KeyKind::P256, id));
    bad(Tables::client().compression(&[CompressionName::NONE; 17]));
    bad(many(9));
    assert!(many(8).write_kex(&[0; 16], &mut [0; 4096]).is_ok());
    bad(Tables::server().key_row(KeyKind::P256, 1).certificate_row(KeyKind::P384, 1));
    bad(Tables::client().key_row(KeyKind::Ed25519, 1));
    assert_eq!(KexName::from_number(13), Err(Refusal::BadTable));
}

#[test]
fn no_choice_10_to_14() {
    assert_eq!(reads(peer().with_kex("ecdh-sha2-nistp256")), Some(Refusal::NoKex.at(17)));
    assert_eq!(reads(peer().with_key("")), Some(Refusal::NoKey.at(38)));
    assert_eq!(reads(Peer::new(CipherName::AES128_CTR)), Some(Refusal::NoCipher.at(53)));
    assert_eq!(reads(peer().with_compression("zlib@openssh.com")), Some(Refusal::NoCompression.at(153)));
    let server = server(CipherName::AES128_CTR).mac(&[MacName::HMAC_SHA2_512]);
    assert_eq!(server.read_kex(false, &Peer::new(CipherName::AES128_CTR).payload()), Err(Refusal::NoMac.at(81)));
}
