//! Any bytes get an answer: the readers on strings of two bytes, on good messages with a byte changed, on random bytes.
//! That nothing here panics is half of what is tried; a refusal's offset lies inside the bytes, or at their end.

mod peer;

use harupesat::{ChannelType, CipherName, Counters, Frame, ReadRefusal, Refusal, Tables};
use harupesat::{read_confirmation, read_open, read_packet};
use peer::{Peer, server, string};

const OFFER: [u8; 12] = [0, 0, 0, 1, 0, 0, 0, 2, 0, 0, 0, 3];

/// What the library judges to be UTF-8 is what Rust takes for a `str`.
#[test]
fn two_bytes_as_a_type() {
    for pair in 0..=u16::MAX {
        let bytes = pair.to_be_bytes();
        let body = [&string(&bytes)[..], &OFFER].concat();
        match std::str::from_utf8(&bytes) {
            Ok(typ) => assert_eq!(read_open(&body).map(|open| open.typ), Ok(ChannelType::Unknown { typ, rest: &[] })),
            Err(_) => assert_eq!(read_open(&body), Err(Refusal::NotUtf8.at(0))),
        }
    }
}

fn inside<T>(bytes: &[u8], answer: &Result<T, ReadRefusal>) {
    assert!(answer.as_ref().err().is_none_or(|refusal| refusal.offset <= bytes.len()));
}

/// A message with each byte set to a few others in turn, and which one it was.
fn damaged(good: &[u8]) -> impl Iterator<Item = (usize, Vec<u8>)> {
    (0..good.len()).flat_map(move |at| {
        [0, 1, b',', 0x80, 0xFF].map(|byte| {
            let mut bad = good.to_vec();
            bad[at] = byte;
            (at, bad)
        })
    })
}

#[test]
fn damaged_messages() {
    let cipher = CipherName::CHACHA20_POLY1305;
    let (server, kexinit) = (server(cipher), Peer::new(cipher).payload());
    for (at, bad) in damaged(&kexinit) {
        let got = server.read_kex(false, &bad);
        inside(&bad, &got);
        assert!(at >= 17 || got == server.read_kex(false, &kexinit), "message number and cookie are not looked at");
    }
    let host = [&string(b"direct-tcpip")[..], &OFFER, &string(b"depot"), &[0; 4], &string(b"::1"), &[0; 4]].concat();
    for (_, bad) in damaged(&host) {
        let got = read_open(&bad);
        inside(&bad, &got);
        assert!(got.map_or(true, |open| open.recipient_maximum_packet_size != 0));
    }
}

/// xorshift64
struct Random(u64);

impl Random {
    fn next(&mut self) -> u64 {
        self.0 ^= self.0 << 13;
        self.0 ^= self.0 >> 7;
        self.0 ^= self.0 << 17;
        self.0
    }

    fn bytes(&mut self) -> Vec<u8> {
        let len = self.next() % 64;
        (0..len).map(|_| self.next().to_le_bytes()[0] >> (self.next() % 8)).collect()
    }
}

#[test]
fn random_bytes() {
    let mut random = Random(0x4861_7275_7065_7361);
    let tables = Tables::client();
    for _ in 0..20_000 {
        let bytes = random.bytes();
        let refused = tables.read_kex(false, &bytes);
        assert!(refused.is_err());
        inside(&bytes, &refused);
        inside(&bytes, &read_open(&bytes));
        inside(&bytes, &read_confirmation(&bytes));
        match read_packet(&bytes, Counters::default()) {
            Ok(Frame::Need(n)) => assert!(n > bytes.len()),
            Ok(Frame::Packet(packet)) => assert!(packet.taken <= bytes.len() && packet.payload.len() <= packet.taken),
            Err(refusal) => assert!(refusal == Refusal::PacketSize.at(0) || refusal == Refusal::Padding.at(4)),
        }
    }
}
