//! crates/channels/specs: Open; crates/layouts/specs: Types; crates/replies/specs: Confirmation, Failure

use crate::answer::{Out, guard, guard_at};
use crate::put;
use crate::wire::{At, Place, Run, end, here, string, word};

const MOST_BODY: usize = 262175;
const MOST_TEXT: usize = 1024;

#[derive(Debug, Clone, Copy, PartialEq, Eq)]
pub struct TcpChannelInfo {
    pub host_to_connect: Place,
    pub port_to_connect: u32,
    pub originator_address: Place,
    pub originator_port: u32,
}

#[derive(Debug, Clone, Copy, PartialEq, Eq)]
pub enum ChannelType {
    Session,
    X11(Place, u32),
    DirectTcpip(TcpChannelInfo),
    DirectStreamLocal(Place),
    ForwardedTcpIp(TcpChannelInfo),
    ForwardedStreamLocal(Place),
    AgentForward,
    /// the type, and where the rest starts
    Unknown(Place, usize),
}

use ChannelType::*;

pub struct Offer {
    pub sender_channel: u32,
    pub initial_window_size: u32,
    pub maximum_packet_size: u32,
}

#[derive(Debug, Clone, PartialEq, Eq)]
pub struct OpenChannelMessage {
    pub typ: ChannelType,
    pub recipient_channel: u32,
    pub recipient_window_size: u32,
    pub recipient_maximum_packet_size: u32,
}

/// "sender, window, maximum packet, then 6 on 0"; 6 is for the maximum's field
fn offer(c: At) -> Out<(Offer, At)> {
    let (sender, c1) = word(c)?;
    let (window, c2) = word(c1)?;
    let (most, c3) = word(c2)?;
    guard_at(6, c2.at, most != 0)?;
    Ok((Offer { sender_channel: sender, initial_window_size: window, maximum_packet_size: most }, c3))
}

fn exact(t: ChannelType, c: At) -> Out<ChannelType> {
    end(c)?;
    Ok(t)
}

fn x11(c: At) -> Out<ChannelType> {
    let (address, c1) = string(c)?;
    let (port, c2) = word(c1)?;
    exact(X11(address.place, port), c2)
}

fn tcpip(made: fn(TcpChannelInfo) -> ChannelType, c: At) -> Out<ChannelType> {
    let (host, c1) = string(c)?;
    let (port, c2) = word(c1)?;
    let (address, c3) = string(c2)?;
    let (from, c4) = word(c3)?;
    let info = TcpChannelInfo {
        host_to_connect: host.place,
        port_to_connect: port,
        originator_address: address.place,
        originator_port: from,
    };
    exact(made(info), c4)
}

fn direct_stream_local(c: At) -> Out<ChannelType> {
    let (path, c1) = string(c)?;
    let (_, c2) = string(c1)?;
    let (_, c3) = word(c2)?;
    exact(DirectStreamLocal(path.place), c3)
}

fn forwarded_stream_local(c: At) -> Out<ChannelType> {
    let (path, c1) = string(c)?;
    let (_, c2) = string(c1)?;
    exact(ForwardedStreamLocal(path.place), c2)
}

fn openssh_type(t: Run, c: At) -> Out<ChannelType> {
    match t.bytes {
        b"direct-streamlocal@openssh.com" => direct_stream_local(c),
        b"forwarded-streamlocal@openssh.com" => forwarded_stream_local(c),
        b"auth-agent@openssh.com" => exact(AgentForward, c),
        _ => Ok(Unknown(t.place, c.at)),
    }
}

fn channel_type(t: Run, c: At) -> Out<ChannelType> {
    match t.bytes {
        b"session" => exact(Session, c),
        b"x11" => x11(c),
        b"direct-tcpip" => tcpip(DirectTcpip, c),
        b"forwarded-tcpip" => tcpip(ForwardedTcpIp, c),
        _ => openssh_type(t, c),
    }
}

pub fn read_open(b: &[u8]) -> Out<OpenChannelMessage> {
    guard(1, b.len() <= MOST_BODY)?;
    let (t, c1) = string(here(b, 0))?;
    let (o, c2) = offer(c1)?;
    let typ = channel_type(t, c2)?;
    Ok(OpenChannelMessage {
        typ,
        recipient_channel: o.sender_channel,
        recipient_window_size: o.initial_window_size,
        recipient_maximum_packet_size: o.maximum_packet_size,
    })
}

pub fn read_confirmation(b: &[u8]) -> Out<plain::Confirmation> {
    guard(1, b.len() <= MOST_BODY)?;
    let (recipient, c1) = word(here(b, 0))?;
    let (o, _) = offer(c1)?;
    Ok(plain::Confirmation {
        recipient_channel: recipient,
        sender_channel: o.sender_channel,
        initial_window_size: o.initial_window_size,
        maximum_packet_size: o.maximum_packet_size,
    })
}

/// "the rest of the body is handed back as it stands"
pub fn rest_of(t: ChannelType, b: &[u8]) -> &[u8] {
    match t {
        Unknown(_, rest) => here(b, rest).left,
        _ => &[],
    }
}

/// 92, recipient, reason, text, "en"
pub fn payload(recipient: u32, reason: u8, text: &[u8]) -> Vec<u8> {
    [
        vec![92],
        put::word(recipient as u64),
        put::word(reason as u64),
        put::word(text.len() as u64),
        text.to_vec(),
        put::word(2),
        b"en".to_vec(),
    ]
    .concat()
}

pub fn failure(recipient: u32, reason: u8, text: &[u8]) -> Out<Vec<u8>> {
    guard(1, text.len() <= MOST_TEXT)?;
    Ok(payload(recipient, reason, text))
}

pub fn unknown_type(recipient: u32) -> Out<Vec<u8>> {
    failure(recipient, 3, b"Unknown channel type")
}
