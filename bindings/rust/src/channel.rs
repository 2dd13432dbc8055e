use crate::part::{front, part, show_text};
use crate::refusal::{ReadRefusal, Refusal};
use crate::{call, ffi};

/// A peer's wish to open a channel (CHANNEL_OPEN, RFC 4254 section 5.1). Its texts are parts of the body that was read.
#[derive(Clone, Copy, Debug, PartialEq, Eq)]
pub struct ChannelOpen<'a> {
    /// The channel's type, and what comes with it.
    pub typ: ChannelType<'a>,
    /// The peer's number of the channel: the recipient of the answer.
    pub recipient_channel: u32,
    /// How many bytes may be sent to the peer before it adjusts its window.
    pub recipient_window_size: u32,
    /// The largest packet to send to the peer: never 0.
    pub recipient_maximum_packet_size: u32,
}

/// The type of a channel.
#[derive(Clone, Copy, Debug, PartialEq, Eq)]
pub enum ChannelType<'a> {
    /// `session`
    Session,
    /// `x11`
    X11 {
        /// Where the X11 connection came from.
        originator_address: &'a str,
        /// Its port.
        originator_port: u32,
    },
    /// `direct-tcpip`
    DirectTcpip(TcpChannelInfo<'a>),
    /// `direct-streamlocal@openssh.com`
    DirectStreamLocal {
        /// The socket's path.
        socket_path: &'a str,
    },
    /// `forwarded-tcpip`
    ForwardedTcpip(TcpChannelInfo<'a>),
    /// `forwarded-streamlocal@openssh.com`
    ForwardedStreamLocal {
        /// The socket's path.
        socket_path: &'a str,
    },
    /// `auth-agent@openssh.com`
    AgentForward,
    /// Any other type: see [`unknown_type`].
    Unknown {
        /// The type's name.
        typ: &'a str,
        /// What follows the four fields that every type has.
        rest: &'a [u8],
    },
}

/// What the two TCP types say. A port is any uint32.
#[derive(Clone, Copy, Debug, PartialEq, Eq)]
pub struct TcpChannelInfo<'a> {
    /// The host to connect; of `forwarded-tcpip` the address that was connected.
    pub host_to_connect: &'a str,
    /// Its port.
    pub port_to_connect: u32,
    /// Where the connection came from.
    pub originator_address: &'a str,
    /// Its port.
    pub originator_port: u32,
}

/// Reads the body of CHANNEL_OPEN (90), which starts after the message number.
///
/// # Errors
/// [`Refusal::TooLong`]; then, in the order of the fields, [`Refusal::PastEnd`], [`Refusal::NotUtf8`],
/// [`Refusal::Inconsistent`] and [`Refusal::Trailing`].
pub fn read_open(body: &[u8]) -> Result<ChannelOpen<'_>, ReadRefusal> {
    let open = call::read_open(body)?;
    Ok(ChannelOpen {
        typ: typ(&open, body)?,
        recipient_channel: open.recipient_channel,
        recipient_window_size: open.recipient_window_size,
        recipient_maximum_packet_size: open.recipient_maximum_packet_size,
    })
}

fn typ<'a>(open: &ffi::Open, body: &'a [u8]) -> Result<ChannelType<'a>, ReadRefusal> {
    let text = show_text(body, open.text_start, open.text_len)?;
    let originator_address = show_text(body, open.originator_start, open.originator_len)?;
    let originator_port = open.originator_port;
    let tcp = TcpChannelInfo { host_to_connect: text, port_to_connect: open.port, originator_address, originator_port };
    Ok(match open.typ {
        0 => ChannelType::Session,
        1 => ChannelType::X11 { originator_address, originator_port },
        2 => ChannelType::DirectTcpip(tcp),
        3 => ChannelType::DirectStreamLocal { socket_path: text },
        4 => ChannelType::ForwardedTcpip(tcp),
        5 => ChannelType::ForwardedStreamLocal { socket_path: text },
        6 => ChannelType::AgentForward,
        7 => ChannelType::Unknown { typ: text, rest: part(body, open.rest_start, open.rest_len)? },
        new => panic!("the library answers with channel type {new}, which is new: this wrapper is older than the library"),
    })
}

/// The peer's consent to a channel (CHANNEL_OPEN_CONFIRMATION).
#[derive(Clone, Copy, Debug, PartialEq, Eq, Hash)]
pub struct Confirmation {
    /// Our number of the channel.
    pub recipient_channel: u32,
    /// The peer's number of the channel.
    pub sender_channel: u32,
    /// How many bytes may be sent to the peer before it adjusts its window.
    pub initial_window_size: u32,
    /// The largest packet to send to the peer: never 0.
    pub maximum_packet_size: u32,
}

/// Reads the body of CHANNEL_OPEN_CONFIRMATION (91), which starts after the message number. Later bytes are accepted.
///
/// # Errors
/// [`Refusal::TooLong`], [`Refusal::PastEnd`] and [`Refusal::Inconsistent`].
pub fn read_confirmation(body: &[u8]) -> Result<Confirmation, ReadRefusal> {
    let confirmation = call::read_confirmation(body)?;
    Ok(Confirmation {
        recipient_channel: confirmation.recipient_channel,
        sender_channel: confirmation.sender_channel,
        initial_window_size: confirmation.initial_window_size,
        maximum_packet_size: confirmation.maximum_packet_size,
    })
}

/// Writes the payload of CHANNEL_OPEN_FAILURE (92) to the front of `out`, and hands that part back: 19 bytes more than the
/// text, which may be any bytes. RFC 4254 section 5.1 knows the reasons 1, administratively prohibited; 2, connect failed;
/// 3, unknown channel type; 4, resource shortage.
///
/// # Errors
/// [`Refusal::TooLong`] for a text over 1,024 bytes, then [`Refusal::NoRoom`]; `out` then is as it was.
pub fn fail<'a>(recipient: u32, reason: u8, text: &[u8], out: &'a mut [u8]) -> Result<&'a [u8], Refusal> {
    let written = call::fail(recipient, reason, text, out)?;
    front(out, written.len)
}

/// Writes the failure for a type that is not known to the front of `out`, and hands that part back: 39 bytes.
///
/// # Errors
/// [`Refusal::NoRoom`]; `out` then is as it was.
pub fn unknown_type(recipient: u32, out: &mut [u8]) -> Result<&[u8], Refusal> {
    let written = call::unknown_type(recipient, out)?;
    front(out, written.len)
}
