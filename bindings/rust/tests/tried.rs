//! Document 01's tried bytes through the wrapper: P1 to P12, with the correction of P12 (docs/DIFFERENCES.md, C1), and the
//! lines after them.

mod peer;

use harupesat::{ChannelOpen, ChannelType, CipherName, Counters, Frame, MacName, Names, Packet, ReadRefusal, Refusal};
use harupesat::{Sealed, read_open, read_packet, unknown_type, write_packet};
use peer::{Peer, client, server, string};

const START: Counters = Counters { seqn: 0, bytes: 0 };
const CHACHA20: CipherName = CipherName::CHACHA20_POLY1305;
const AES128_CTR: CipherName = CipherName::AES128_CTR;

/// The packet of a payload, with its padding length.
fn packet_of(payload: &[u8]) -> Result<(usize, Vec<u8>), Refusal> {
    let mut out = vec![0xEE; payload.len() + 16];
    let Sealed { packet, counters } = write_packet(payload, START, &mut out)?;
    assert_eq!(counters, Counters { seqn: 1, bytes: payload.len() as u64 });
    let padding = packet.len() - 5 - payload.len();
    assert_eq!(packet[..4], u32::try_from(packet.len() - 4).unwrap().to_be_bytes());
    assert_eq!(usize::from(packet[4]), padding);
    assert_eq!(&packet[5..5 + payload.len()], payload);
    assert_eq!(packet[5 + payload.len()..], vec![0; padding]);
    Ok((padding, packet.to_vec()))
}

#[test]
fn p1_to_p3_padding_and_total() {
    for (n, padding, total) in [(0, 11, 16), (7, 4, 16), (8, 11, 24)] {
        let (got, packet) = packet_of(&vec![9; n]).unwrap();
        assert_eq!((got, packet.len()), (padding, total), "payload {n}");
    }
}

fn empty(end: usize, taken: usize) -> Result<Frame<'static>, ReadRefusal> {
    Ok(Frame::Packet(Packet { payload: &[], end, taken, counters: Counters { seqn: 1, bytes: 0 } }))
}

#[test]
fn p4_to_p8_reading() {
    for (bytes, answer) in [
        (&[0, 0, 0, 1, 1][..], empty(4, 5)),
        (&[0, 0, 0, 1, 2], Err(Refusal::Padding.at(4))),
        (&[0, 0, 0, 0], empty(4, 4)),
        (&[0, 4, 0, 0x21], Ok(Frame::Need(262_181))),
        (&[0, 4, 0, 0x22], Err(Refusal::PacketSize.at(0))),
    ] {
        assert_eq!(read_packet(bytes, START), answer, "{bytes:?}");
    }
}

#[test]
fn p9_short_kexinits() {
    assert_eq!(client(CHACHA20).read_kex(false, &[0; 16]), Err(Refusal::Inconsistent.at(0)));
    assert_eq!(client(CHACHA20).read_kex(false, &[0; 17]), Err(Refusal::PastEnd.at(17)));
}

#[test]
fn p10_a_session() {
    let body = [&string(b"session")[..], &[0; 4], &2_097_152u32.to_be_bytes(), &32_768u32.to_be_bytes()].concat();
    assert_eq!(body.len(), 23);
    let session = ChannelOpen {
        typ: ChannelType::Session,
        recipient_channel: 0,
        recipient_window_size: 2_097_152,
        recipient_maximum_packet_size: 32_768,
    };
    assert_eq!(read_open(&body), Ok(session));
    let mut more = [&body[..], &[0]].concat();
    assert_eq!(read_open(&more), Err(Refusal::Trailing.at(23)));
    more[19..23].fill(0);
    assert_eq!(read_open(&more), Err(Refusal::Inconsistent.at(19)));
}

#[test]
fn p11_none_shared_first() {
    let reads = |cipher| {
        let tables = server(cipher).mac(&[MacName::HMAC_SHA2_256, MacName::NONE]);
        tables.read_kex(false, &Peer::new(cipher).with_mac("none,hmac-sha2-256").payload())
    };
    assert_eq!(reads(AES128_CTR), Err(Refusal::NoMac.at(81)));
    let Names { client_mac, server_mac, .. } = reads(CHACHA20).unwrap();
    assert_eq!([client_mac, server_mac], [MacName::NONE; 2]);
}

#[test]
fn p12_the_guess() {
    for (list, ignored) in
        [("foo,curve25519-sha256", true), ("ext-info-c,curve25519-sha256", true), ("curve25519-sha256,ext-info-c", false)]
    {
        let names = server(CHACHA20).read_kex(false, &Peer::new(CHACHA20).with_kex(list).guessing().payload()).unwrap();
        assert_eq!(names.ignore_guessed, ignored, "{list}");
    }
}

#[test]
fn the_two_kexinits() {
    for (cipher, length, padding, total) in [(CHACHA20, 182, 5, 192), (AES128_CTR, 144, 11, 160)] {
        let mut out = [0; harupesat::KEXINIT_ROOM];
        let payload = client(cipher).write_kex(b"a peer's cookie.", &mut out).unwrap();
        assert_eq!(payload, Peer::new(cipher).payload());
        let (got, packet) = packet_of(payload).unwrap();
        assert_eq!((payload.len(), got, packet.len()), (length, padding, total));
    }
    let (_, packet) = packet_of(&Peer::new(CHACHA20).payload()).unwrap();
    assert_eq!(packet[..6], [0, 0, 0, 0xBC, 5, 0x14]);
}

#[test]
fn the_largest_payload() {
    let payload = vec![0; harupesat::MOST_PAYLOAD + 1];
    assert_eq!(packet_of(&payload[1..]).unwrap().1.len(), 262_176);
    assert_eq!(packet_of(&payload), Err(Refusal::PacketSize));
}

#[test]
fn the_failure_for_an_unknown_type() {
    let mut out = [0xEE; 40];
    let payload =
        [&[92][..], &258u32.to_be_bytes(), &[0, 0, 0, 3], &string(b"Unknown channel type"), &string(b"en")].concat();
    assert_eq!(payload.len(), 39);
    assert_eq!(unknown_type(258, &mut out), Ok(&payload[..]));
    assert_eq!(out[39], 0xEE);
}
