//! The model's answers, in plain numbers and bytes.

use cases::beyond::Beyond;
use cases::named::Named;
use cases::{Answer, Case};
use model::wire::Place;
use model::{channels as mc, door, framing, names, negotiation, put, wire};
use plain::{ChannelType, Counters, Opening, Out, Read, Refusal, Tcp};

/// a reader's answer
fn read_out<T>(answer: model::answer::Out<T>) -> Out<T> {
    answer.map_err(|r| Refusal { number: r.number, offset: Some(r.offset) })
}

/// a writer's, or one about names: it says no place
fn out<T>(answer: model::answer::Out<T>) -> Out<T> {
    answer.map_err(|r| r.number.into())
}

fn shown(s: &[u8], p: Place) -> Vec<u8> {
    wire::shown(s, p).expect("a place that was read lies inside").to_vec()
}

fn opening(b: &[u8], m: mc::OpenChannelMessage) -> Opening {
    let tcp = |i: mc::TcpChannelInfo| Tcp {
        host: shown(b, i.host_to_connect),
        port: i.port_to_connect,
        originator: shown(b, i.originator_address),
        originator_port: i.originator_port,
    };
    Opening {
        typ: match m.typ {
            mc::ChannelType::Session => ChannelType::Session,
            mc::ChannelType::X11(address, port) => ChannelType::X11 { originator: shown(b, address), port },
            mc::ChannelType::DirectTcpip(i) => ChannelType::DirectTcpip(tcp(i)),
            mc::ChannelType::DirectStreamLocal(path) => ChannelType::DirectStreamLocal { path: shown(b, path) },
            mc::ChannelType::ForwardedTcpIp(i) => ChannelType::ForwardedTcpIp(tcp(i)),
            mc::ChannelType::ForwardedStreamLocal(path) => ChannelType::ForwardedStreamLocal { path: shown(b, path) },
            mc::ChannelType::AgentForward => ChannelType::AgentForward,
            mc::ChannelType::Unknown(typ, _) => {
                ChannelType::Unknown { typ: shown(b, typ), rest: mc::rest_of(m.typ, b).to_vec() }
            }
        },
        recipient_channel: m.recipient_channel,
        recipient_window_size: m.recipient_window_size,
        recipient_maximum_packet_size: m.recipient_maximum_packet_size,
    }
}

fn read(bytes: &[u8], read: framing::Read) -> Read {
    match read {
        framing::Read::Need(n) => Read::Need(n),
        framing::Read::Packet(p) => {
            Read::Packet { payload: shown(bytes, p.payload), end: p.end, taken: p.taken, counters: p.counters }
        }
    }
}

pub fn case(case: &Case) -> Answer {
    match case {
        Case::ReadKex { tables, strict_agreed, payload } => {
            Answer::Names(read_out(negotiation::read_kex(tables, *strict_agreed, payload)))
        }
        Case::WriteKex { tables, cookie } => Answer::Bytes(out(negotiation::write_kex(tables, cookie))),
        Case::FrameRead { bytes, counters } => {
            Answer::Read(read_out(framing::read_packet(bytes, *counters)).map(|r| read(bytes, r)))
        }
        Case::FrameWrite { payload, counters } => Answer::Sealed(
            out(framing::packet_of(payload)).map(|packet| (packet, framing::counted(payload.len(), *counters))),
        ),
        Case::Open { body } => Answer::Open(read_out(mc::read_open(body)).map(|m| opening(body, m))),
        Case::Confirmation { body } => Answer::Confirmation(read_out(mc::read_confirmation(body))),
        Case::Fail { recipient, reason, text } => Answer::Bytes(out(mc::failure(*recipient, *reason, text))),
        Case::UnknownType { recipient } => Answer::Bytes(out(mc::unknown_type(*recipient))),
    }
}

/// all that is to be written at the front of an `out` of so many bytes, or the refusal
fn lent(room: usize, what: model::answer::Out<Vec<u8>>) -> Out<Vec<u8>> {
    let before = vec![0; room];
    let n = out(put::written(&before, 0, &what))?;
    Ok(put::buffer(&before, 0, &what)[..n].to_vec())
}

pub fn named(named: &Named) -> Answer {
    Answer::Bytes(match named {
        Named::Spelling { kind, number, room } => lent(*room, door::name_of(*kind, *number)),
        Named::Lookup { kind, name } => out(door::named_of(*kind, name)).map(|number| number.into_iter().collect()),
        Named::NeedsMac { cipher } => out(names::needs_mac(*cipher)).map(|flag| vec![flag as u8]),
        Named::BuiltInIntegrity { cipher } => out(names::built_in_integrity(*cipher)).map(|flag| vec![flag as u8]),
        Named::DefaultList { kind, room } => lent(*room, door::default_list(*kind)),
    })
}

fn writing(case: &Case, room: usize) -> Answer {
    let sealed = |payload: &[u8], k: Counters| {
        let packet = lent(room, framing::packet_of(payload))?;
        Ok((packet, framing::counted(payload.len(), k)))
    };
    match case {
        Case::WriteKex { tables, cookie } => Answer::Bytes(lent(room, negotiation::write_kex(tables, cookie))),
        Case::FrameWrite { payload, counters } => Answer::Sealed(sealed(payload, *counters)),
        Case::Fail { recipient, reason, text } => Answer::Bytes(lent(room, mc::failure(*recipient, *reason, text))),
        Case::UnknownType { recipient } => Answer::Bytes(lent(room, mc::unknown_type(*recipient))),
        _ => unreachable!("a reader has no out"),
    }
}

/// the places of a message's text, originator and rest; 0 and 0 where there is none
fn parts(b: &[u8], t: mc::ChannelType) -> [(usize, usize); 3] {
    let place = |p: Place| (p.start, p.len);
    match t {
        mc::ChannelType::X11(address, _) => [(0, 0), place(address), (0, 0)],
        mc::ChannelType::DirectTcpip(i) | mc::ChannelType::ForwardedTcpIp(i) => {
            [place(i.host_to_connect), place(i.originator_address), (0, 0)]
        }
        mc::ChannelType::DirectStreamLocal(path) | mc::ChannelType::ForwardedStreamLocal(path) => {
            [place(path), (0, 0), (0, 0)]
        }
        mc::ChannelType::Unknown(typ, rest) => [place(typ), (0, 0), (rest, mc::rest_of(t, b).len())],
        mc::ChannelType::Session | mc::ChannelType::AgentForward => [(0, 0); 3],
    }
}

/// places as the bytes that a comparison shows
pub fn encoded(places: &[(usize, usize)]) -> Vec<u8> {
    places.iter().flat_map(|(start, len)| [start.to_be_bytes(), len.to_be_bytes()]).flatten().collect()
}

fn places(case: &Case) -> Out<Vec<u8>> {
    match case {
        Case::FrameRead { bytes, counters } => read_out(framing::read_packet(bytes, *counters)).map(|read| match read {
            framing::Read::Need(_) => encoded(&[(0, 0)]),
            framing::Read::Packet(p) => encoded(&[(p.payload.start, p.payload.len)]),
        }),
        Case::Open { body } => read_out(mc::read_open(body)).map(|m| encoded(&parts(body, m.typ))),
        _ => unreachable!("places are asked of packets and messages alone"),
    }
}

pub fn beyond(beyond: &Beyond) -> Answer {
    match beyond {
        Beyond::Reading(c) | Beyond::Offset(c) => case(c),
        Beyond::Places(c) => Answer::Bytes(places(c)),
        Beyond::Writing { case, room } => writing(case, *room),
        Beyond::Cookie { tables, cookie, room } => Answer::Bytes(lent(*room, negotiation::write_kex(tables, cookie))),
        Beyond::Show { bytes, start, len } => {
            Answer::Bytes(read_out(wire::shown(bytes, Place { start: *start, len: *len })).map(|part| part.to_vec()))
        }
    }
}
