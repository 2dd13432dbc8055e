//! What is lent: a refused write leaves the output as it was, a write what it does not need; what is read comes back as
//! parts of the caller's bytes; counters move with a packet and with nothing else.

mod peer;

use harupesat::{CipherName, Counters, Frame, Refusal, Sealed, fail, read_open, read_packet, unknown_type, write_packet};
use peer::{client, string};

/// An output of known bytes, none like its neighbour.
fn field(len: usize) -> Vec<u8> {
    (0..len).map(|i| (i * 167 + 29) as u8).collect()
}

/// Tries a writer with every room up to 200 bytes: below `len` it refuses and writes nothing, from there on it writes that
/// and no more.
fn tries(len: usize, write: impl Fn(&mut [u8]) -> Result<Vec<u8>, Refusal>) {
    for room in 0..200 {
        let mut out = field(room);
        match write(&mut out) {
            Err(refusal) => {
                assert!(room < len && refusal == Refusal::NoRoom, "{refusal} with room {room}");
                assert_eq!(out, field(room));
            }
            Ok(written) => {
                assert_eq!((written.len(), &out[..len]), (len, &written[..]), "room {room}");
                assert_eq!(out[len..], field(room)[len..]);
            }
        }
    }
}

#[test]
fn a_writer_writes_all_or_nothing() {
    tries(182, |out| client(CipherName::CHACHA20_POLY1305).write_kex(&[5; 16], out).map(<[u8]>::to_vec));
    tries(24, |out| write_packet(b"12345678", Counters::default(), out).map(|sealed| sealed.packet.to_vec()));
    tries(25, |out| fail(1, 1, b"closed", out).map(<[u8]>::to_vec));
    tries(39, |out| unknown_type(1, out).map(<[u8]>::to_vec));
}

#[test]
fn a_part_is_no_copy() {
    let packet = [0, 0, 0, 3, 1, 7, 0, 9, 9];
    let Ok(Frame::Packet(got)) = read_packet(&packet, Counters::default()) else { panic!() };
    assert_eq!(got.payload.as_ptr_range(), packet[5..6].as_ptr_range());
    let body = [&string(b"tun@openssh.com")[..], &[1; 12], b"rest"].concat();
    let harupesat::ChannelType::Unknown { typ, rest } = read_open(&body).unwrap().typ else { panic!() };
    assert_eq!(typ.as_bytes().as_ptr_range(), body[4..19].as_ptr_range());
    assert_eq!(rest.as_ptr_range(), body[31..].as_ptr_range());
    let mut out = [0; 40];
    let start = out.as_ptr();
    assert_eq!(unknown_type(1, &mut out).unwrap().as_ptr(), start);
}

/// A direction that meets a need and refusals between two packets counts two packets.
#[test]
fn a_need_and_a_refusal_count_nothing() {
    let mut counters = Counters { seqn: u32::MAX, bytes: 100 };
    let packet = [0, 0, 0, 3, 1, 7, 0];
    for bytes in [&packet[..], &packet[..6], &[0, 0, 0, 1, 2], &[0xFF; 4], &packet] {
        if let Ok(Frame::Packet(got)) = read_packet(bytes, counters) {
            counters = got.counters;
        }
    }
    assert_eq!(counters, Counters { seqn: 1, bytes: 102 });
    for room in [7, 16, 15, 24] {
        if let Ok(Sealed { counters: next, .. }) = write_packet(b"depot", counters, &mut vec![0; room]) {
            counters = next;
        }
    }
    assert_eq!(counters, Counters { seqn: 3, bytes: 112 });
}

#[test]
fn the_byte_count_stops_at_its_end() {
    let full = Counters { seqn: 0, bytes: u64::MAX - 1 };
    let after = Counters { seqn: 1, bytes: u64::MAX };
    assert_eq!(write_packet(b"depot", full, &mut [0; 16]).unwrap().counters, after);
    let Ok(Frame::Packet(got)) = read_packet(&[0, 0, 0, 3, 0, 7, 7], full) else { panic!() };
    assert_eq!(got.counters, after);
}

#[test]
fn need_says_how_many_in_all() {
    for have in 0..4 {
        assert_eq!(read_packet(&[0, 0, 0, 12][..have], Counters::default()), Ok(Frame::Need(4)));
    }
    let packet = [0, 0, 0, 12, 11, 0, 0, 0, 0, 0, 0, 0, 0, 0, 0, 0];
    for have in 4..16 {
        assert_eq!(read_packet(&packet[..have], Counters::default()), Ok(Frame::Need(16)));
    }
}
