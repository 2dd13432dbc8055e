use crate::part::{front, part};
use crate::refusal::{ReadRefusal, Refusal};
use crate::size::narrow;
use crate::{call, ffi};

/// The largest payload that a packet takes.
pub const MOST_PAYLOAD: usize = 262_167;

/// How many bytes more than its payload a packet takes at the most: an output of `payload.len() + PACKET_ROOM` is enough.
pub const PACKET_ROOM: usize = 16;

/// One direction's counters: the default, 0 and 0, when the connection starts. They go in and come out by value; where
/// nothing comes out, go on with the old ones.
#[derive(Clone, Copy, Debug, Default, PartialEq, Eq, Hash)]
pub struct Counters {
    /// The sequence number of the next packet, modulo 2^32.
    pub seqn: u32,
    /// The payload bytes so far; stops at its largest value.
    pub bytes: u64,
}

/// What stands at the front of the bytes that have come.
#[derive(Clone, Copy, Debug, PartialEq, Eq)]
pub enum Frame<'a> {
    /// No whole packet yet: this many bytes are needed in all, at most 262,181.
    Need(usize),
    /// A packet.
    Packet(Packet<'a>),
}

/// A packet that was read.
#[derive(Clone, Copy, Debug, PartialEq, Eq)]
pub struct Packet<'a> {
    /// The payload: a part of the bytes lent.
    pub payload: &'a [u8],
    /// Where the padding starts.
    pub end: usize,
    /// The packet's bytes, padding and all: the next packet starts there.
    pub taken: usize,
    /// The direction's counters after the packet.
    pub counters: Counters,
}

/// Reads the clear packet at the front of `bytes` (RFC 4253 section 6).
///
/// # Errors
/// [`Refusal::PacketSize`] and [`Refusal::Padding`].
pub fn read_packet(bytes: &[u8], counters: Counters) -> Result<Frame<'_>, ReadRefusal> {
    let frame = call::frame_read(bytes, counters)?;
    if frame.what == ffi::NEED {
        return Ok(Frame::Need(narrow(frame.need)?));
    }
    Ok(Frame::Packet(Packet {
        payload: part(bytes, frame.start, frame.len)?,
        end: narrow(frame.end)?,
        taken: narrow(frame.taken)?,
        counters: Counters { seqn: frame.seqn, bytes: frame.bytes },
    }))
}

/// A packet that was written.
#[derive(Clone, Copy, Debug, PartialEq, Eq)]
pub struct Sealed<'a> {
    /// The packet: the front of the output lent.
    pub packet: &'a [u8],
    /// The direction's counters after the packet.
    pub counters: Counters,
}

/// Writes a payload of up to [`MOST_PAYLOAD`] bytes as a clear packet to the front of `out`. An output of
/// `payload.len() +` [`PACKET_ROOM`] bytes is always enough; what is not needed keeps its value.
///
/// # Errors
/// [`Refusal::PacketSize`], then [`Refusal::NoRoom`]; `out` then is as it was.
pub fn write_packet<'a>(payload: &[u8], counters: Counters, out: &'a mut [u8]) -> Result<Sealed<'a>, Refusal> {
    let sealed = call::frame_write(payload, counters, out)?;
    Ok(Sealed { packet: front(out, sealed.len)?, counters: Counters { seqn: sealed.seqn, bytes: sealed.bytes } })
}
