//! The thin public door of the oracle: tables of numbers and bytes in, document 01's numbers and values out. Every
//! answer is the text's; what is added here is the lookup of names and numbers, and one table of errors.

use std::borrow::Cow;
use std::future::Future;
use std::num::Wrapping;
use std::pin::pin;
use std::task::{Context, Poll, Waker};

use plain::{ChannelType as Typ, Confirmation, Counters, Names, Opening, Out, Read, Side, Tables, Tcp};
use ssh_key::{Algorithm, Certificate, PrivateKey};

use crate::cipher::SealingKey;
use crate::kex::KexCause;
use crate::negotiation::{self, Client, Preferred, Select, Server};
use crate::parsing::{ChannelOpenConfirmation, ChannelType, OpenChannelMessage, TcpChannelInfo};
use crate::sshbuffer::{PacketWriter, SSHBuffer};
use crate::{AlgorithmKind, CryptoVec, Error, cipher, server};
use names::{CIPHER, COMPRESSION, KEX, KEY, KIND, MAC, compression_number, named, place};

mod differences;
mod names;

pub use differences::differences;
pub use names::{needs_mac, spelling};

/// The Rust's errors and document 01's numbers.
fn number(error: Error) -> u8 {
    match error {
        Error::Encoding(ssh_encoding::Error::Length | ssh_encoding::Error::Overflow) => 2,
        Error::Encoding(ssh_encoding::Error::CharacterEncoding) => 3,
        Error::PacketSize(_) => 4,
        Error::Encoding(ssh_encoding::Error::TrailingData { .. }) => 5,
        Error::Inconsistent => 6,
        Error::IndexOutOfBounds => 7,
        Error::NoCommonAlgo { kind: AlgorithmKind::Kex, .. } => 10,
        Error::NoCommonAlgo { kind: AlgorithmKind::Key, .. } => 11,
        Error::NoCommonAlgo { kind: AlgorithmKind::Cipher, .. } => 12,
        Error::NoCommonAlgo { kind: AlgorithmKind::Mac, .. } => 13,
        Error::NoCommonAlgo { kind: AlgorithmKind::Compression, .. } => 14,
        other => panic!("document 01 has no number for {other:?}"),
    }
}

fn preferred(t: &Tables) -> Preferred {
    Preferred {
        kex: Cow::Owned(named(&KEX, &t.kex)),
        key: Cow::Owned(named(&KEY, &t.key)),
        host_key_certificates: Cow::Owned(named(&KEY, &t.certificate)),
        cipher: Cow::Owned(named(&CIPHER, &t.cipher)),
        mac: Cow::Owned(named(&MAC, &t.mac)),
        compression: Cow::Owned(named(&COMPRESSION, &t.compression)),
    }
}

fn config(t: &Tables) -> server::Config {
    let rows = |kinds: &[u8], ids: &[u32]| {
        named(&KIND, kinds).into_iter().zip(ids.to_vec()).collect::<Vec<(Algorithm, u32)>>()
    };
    server::Config {
        keys: rows(&t.key_kinds, &t.key_ids).into_iter().map(|(k, i)| PrivateKey::stand_in(k, i)).collect(),
        certificates: rows(&t.cert_kinds, &t.cert_ids)
            .into_iter()
            .map(|(k, i)| Certificate::stand_in(k, i))
            .collect(),
    }
}

/// `Select::read_kex` of the tables' side on a payload. The tables are valid: the Rust has no number 9.
pub fn read_kex(t: &Tables, strict_agreed: bool, payload: &[u8]) -> Out<Names> {
    let pref = preferred(t);
    let cause = match strict_agreed {
        true => KexCause::Rekey { strict: true, session_id: CryptoVec::new() },
        false => KexCause::Initial,
    };
    let config = config(t);
    let names = match t.side {
        Side::Client => Client::read_kex(payload, &pref, None, None, &cause),
        Side::Server => {
            Server::read_kex(payload, &pref, Some(&config.keys), Some(&config.certificates), &cause)
        }
    }
    .map_err(number)?;
    Ok(Names {
        kex: place(&KEX, &names.kex),
        key: place(&KEY, &names.key),
        cipher: place(&CIPHER, &names.cipher),
        client_mac: place(&MAC, &names.client_mac),
        server_mac: place(&MAC, &names.server_mac),
        client_compression: compression_number(&names.client_compression),
        server_compression: compression_number(&names.server_compression),
        host_key_is_certificate: names.host_key_is_certificate,
        ignore_guessed: names.ignore_guessed,
        strict_kex: names.strict_kex(),
    })
}

/// `write_kex`: the payload. The writer's packet is checked against `frame_write` on the way.
pub fn write_kex(t: &Tables, cookie: &[u8; 16]) -> Vec<u8> {
    rand::lend(cookie);
    let config = config(t);
    let mut writer = PacketWriter::clear();
    let payload = negotiation::write_kex(
        &preferred(t),
        &mut writer,
        match t.side {
            Side::Client => None,
            Side::Server => Some(&config),
        },
    )
    .map_err(number)
    .expect("valid tables can be written");
    let payload = payload.as_ref().to_vec();
    let (packet, _) = frame_write(&payload, Counters { seqn: 0, bytes: 0 });
    assert_eq!(writer.buffer().buffer, packet);
    payload
}

/// A slice as a stream. `wanted` is how many bytes in all the reader asked for when it found the end.
struct Slice<'a> {
    bytes: &'a [u8],
    taken: usize,
    wanted: usize,
}

impl tokio::io::AsyncRead for Slice<'_> {
    fn fill(&mut self, out: &mut [u8]) -> std::io::Result<usize> {
        let left = &self.bytes[self.taken..];
        let n = left.len().min(out.len());
        out[..n].copy_from_slice(&left[..n]);
        self.wanted = self.taken + out.len();
        self.taken += n;
        Ok(n)
    }
}

fn block_on<T>(future: impl Future<Output = T>) -> T {
    match pin!(future).poll(&mut Context::from_waker(Waker::noop())) {
        Poll::Ready(value) => value,
        Poll::Pending => unreachable!("the stream is always ready"),
    }
}

fn buffer(k: Counters) -> SSHBuffer {
    SSHBuffer { buffer: Vec::new(), len: 0, bytes: k.bytes as usize, seqn: Wrapping(k.seqn) }
}

fn counters(buffer: &SSHBuffer) -> Counters {
    Counters { seqn: buffer.seqn.0, bytes: buffer.bytes as u64 }
}

/// `cipher::read` in the clear, over a slice; the stream's end is "need".
pub fn frame_read(bytes: &[u8], k: Counters) -> Out<Read> {
    let mut stream = Slice { bytes, taken: 0, wanted: 0 };
    let mut buffer = buffer(k);
    let read = block_on(cipher::read(&mut stream, &mut buffer, &mut cipher::clear::Key));
    match read {
        Ok(end) => Ok(Read::Packet {
            payload: buffer.buffer.get(5..).unwrap_or(&[]).to_vec(),
            end,
            taken: stream.taken,
            counters: counters(&buffer),
        }),
        Err(error) => {
            assert_eq!(counters(&buffer), k, "need and refusals change no counter");
            match error {
                Error::Io(e) if e.kind() == std::io::ErrorKind::UnexpectedEof => Ok(Read::Need(stream.wanted)),
                e => Err(number(e).into()),
            }
        }
    }
}

/// `SealingKey::write` in the clear: the packet and the counters.
pub fn frame_write(payload: &[u8], k: Counters) -> (Vec<u8>, Counters) {
    let mut buffer = buffer(k);
    cipher::clear::Key.write(payload, &mut buffer);
    let k = counters(&buffer);
    (buffer.buffer, k)
}

fn tcp(info: TcpChannelInfo) -> Tcp {
    Tcp {
        host: info.host_to_connect.into_bytes(),
        port: info.port_to_connect,
        originator: info.originator_address.into_bytes(),
        originator_port: info.originator_port,
    }
}

/// `OpenChannelMessage::parse`; an unknown type's rest is what the reader has left.
pub fn open(mut body: &[u8]) -> Out<Opening> {
    let m = OpenChannelMessage::parse(&mut body).map_err(number)?;
    let typ = match m.typ {
        ChannelType::Session => Typ::Session,
        ChannelType::X11 { originator_address, originator_port } => {
            Typ::X11 { originator: originator_address.into_bytes(), port: originator_port }
        }
        ChannelType::DirectTcpip(info) => Typ::DirectTcpip(tcp(info)),
        ChannelType::DirectStreamLocal(info) => Typ::DirectStreamLocal { path: info.socket_path.into_bytes() },
        ChannelType::ForwardedTcpIp(info) => Typ::ForwardedTcpIp(tcp(info)),
        ChannelType::ForwardedStreamLocal(info) => {
            Typ::ForwardedStreamLocal { path: info.socket_path.into_bytes() }
        }
        ChannelType::AgentForward => Typ::AgentForward,
        ChannelType::Unknown { typ } => Typ::Unknown { typ: typ.into_bytes(), rest: body.to_vec() },
    };
    Ok(Opening {
        typ,
        recipient_channel: m.recipient_channel,
        recipient_window_size: m.recipient_window_size,
        recipient_maximum_packet_size: m.recipient_maximum_packet_size,
    })
}

/// `ChannelOpenConfirmation::parse`
pub fn confirmation(mut body: &[u8]) -> Out<Confirmation> {
    let m = ChannelOpenConfirmation::parse(&mut body).map_err(number)?;
    Ok(Confirmation {
        recipient_channel: m.recipient_channel,
        sender_channel: m.sender_channel,
        initial_window_size: m.initial_window_size,
        maximum_packet_size: m.maximum_packet_size,
    })
}

fn opening_of(recipient_channel: u32) -> OpenChannelMessage {
    OpenChannelMessage {
        typ: ChannelType::Session,
        recipient_channel,
        recipient_window_size: 0,
        recipient_maximum_packet_size: 1,
    }
}

/// `OpenChannelMessage::fail`: the bytes inside `push_packet!`
pub fn fail(recipient: u32, reason: u8, text: &[u8]) -> Vec<u8> {
    let mut out = Vec::new();
    opening_of(recipient).fail(&mut out, reason, text).expect("a failure can be written");
    out
}

/// `OpenChannelMessage::unknown_type`
pub fn unknown_type(recipient: u32) -> Vec<u8> {
    let mut out = Vec::new();
    opening_of(recipient).unknown_type(&mut out).expect("a failure can be written");
    out
}

/// `Preferred::DEFAULT` in numbers, for a side with these rows
pub fn defaults(side: Side, key_kinds: &[u8], key_ids: &[u32], cert_kinds: &[u8], cert_ids: &[u32]) -> Tables {
    fn numbers<T: PartialEq>(table: &[T], list: &[T]) -> Vec<u8> {
        list.iter().map(|e| place(table, e)).collect()
    }
    let pref = Preferred::DEFAULT;
    Tables {
        side,
        kex: numbers(&KEX, &pref.kex),
        key: numbers(&KEY, &pref.key),
        certificate: numbers(&KEY, &pref.host_key_certificates),
        cipher: numbers(&CIPHER, &pref.cipher),
        mac: numbers(&MAC, &pref.mac),
        compression: numbers(&COMPRESSION, &pref.compression),
        key_kinds: key_kinds.to_vec(),
        key_ids: key_ids.to_vec(),
        cert_kinds: cert_kinds.to_vec(),
        cert_ids: cert_ids.to_vec(),
    }
}
