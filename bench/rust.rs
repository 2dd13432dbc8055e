//! The Rust's functions as they are measured: what a caller has at hand (preferences, keys, buffers) is prepared apart
//! from the call. Built as the module `door` of the oracle's tree, where what is private to the crate can be reached. The
//! oracle's own door, which makes a side's tables anew for each call, stands beside it for the answers in numbers.
//! Nothing here is inlined into its caller, as nothing of our library can be.

pub mod oracle;

use std::future::Future;
use std::pin::pin;
use std::task::{Context, Poll, Waker};

use bytes::Bytes;
use ssh_key::PrivateKey;

use crate::Error;
use crate::cipher::{self, SealingKey, clear};
use crate::kex::KexCause;
use crate::negotiation::{self, Client, Names, Preferred, Select, Server};
use crate::parsing::{ChannelOpenConfirmation, ChannelType, OpenChannelMessage};
use crate::server::Config;
use crate::sshbuffer::{PacketWriter, SSHBuffer};

/// A side with `Preferred::DEFAULT`; of a server, these keys and no certificate.
pub struct Side {
    pref: Preferred,
    config: Option<Config>,
}

impl Side {
    pub fn client() -> Self {
        Side { pref: Preferred::DEFAULT, config: None }
    }

    pub fn server(keys: Vec<PrivateKey>) -> Self {
        Side { pref: Preferred::DEFAULT, config: Some(Config { keys, certificates: Vec::new() }) }
    }
}

#[inline(never)]
pub fn read_kex(side: &Side, payload: &[u8]) -> Result<Names, Error> {
    match &side.config {
        None => Client::read_kex(payload, &side.pref, None, None, &KexCause::Initial),
        Some(c) => Server::read_kex(payload, &side.pref, Some(&c.keys), Some(&c.certificates), &KexCause::Initial),
    }
}

/// The Rust's packet writer, its buffer with room for what is to be written.
pub struct Writer(PacketWriter);

impl Writer {
    pub fn with_capacity(room: usize) -> Self {
        let mut writer = PacketWriter::clear();
        writer.buffer().buffer.reserve(room);
        Writer(writer)
    }
}

/// The payload, and its packet in the writer's buffer.
#[inline(never)]
pub fn write_kex(side: &Side, cookie: &[u8; 16], writer: &mut Writer) -> Result<Bytes, Error> {
    rand::lend(cookie);
    writer.0.buffer().buffer.clear();
    negotiation::write_kex(&side.pref, &mut writer.0, side.config.as_ref())
}

#[inline(never)]
pub fn frame_write(payload: &[u8], buffer: &mut SSHBuffer) {
    buffer.buffer.clear();
    clear::Key.write(payload, buffer);
}

/// A slice as a stream that is always ready.
struct Slice<'a>(&'a [u8]);

impl tokio::io::AsyncRead for Slice<'_> {
    fn fill(&mut self, out: &mut [u8]) -> std::io::Result<usize> {
        let (now, later) = self.0.split_at(self.0.len().min(out.len()));
        out[..now.len()].copy_from_slice(now);
        self.0 = later;
        Ok(now.len())
    }
}

#[inline(never)]
pub fn frame_read(bytes: &[u8], buffer: &mut SSHBuffer) -> Result<usize, Error> {
    let (mut stream, mut key) = (Slice(bytes), clear::Key);
    let future = pin!(cipher::read(&mut stream, buffer, &mut key));
    match future.poll(&mut Context::from_waker(Waker::noop())) {
        Poll::Ready(end) => end,
        Poll::Pending => unreachable!("the stream is always ready"),
    }
}

#[inline(never)]
pub fn open(mut body: &[u8]) -> Result<OpenChannelMessage, Error> {
    OpenChannelMessage::parse(&mut body)
}

/// The four numbers: the Rust's record is private to its crate.
#[inline(never)]
pub fn confirmation(mut body: &[u8]) -> Result<[u32; 4], Error> {
    let m = ChannelOpenConfirmation::parse(&mut body)?;
    Ok([m.recipient_channel, m.sender_channel, m.initial_window_size, m.maximum_packet_size])
}

/// A message to be answered with a failure.
pub fn session(recipient_channel: u32) -> OpenChannelMessage {
    OpenChannelMessage {
        typ: ChannelType::Session,
        recipient_channel,
        recipient_window_size: 0,
        recipient_maximum_packet_size: 1,
    }
}

#[inline(never)]
pub fn fail(message: &OpenChannelMessage, reason: u8, text: &[u8], out: &mut Vec<u8>) -> Result<(), Error> {
    out.clear();
    message.fail(out, reason, text)
}

#[inline(never)]
pub fn unknown_type(message: &OpenChannelMessage, out: &mut Vec<u8>) -> Result<(), Error> {
    out.clear();
    message.unknown_type(out)
}
