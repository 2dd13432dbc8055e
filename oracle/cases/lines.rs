//! A case and its answer as one line of text.

use crate::{Answer, Case};
use plain::{ChannelType, Counters, Read, Side, Tables, Tcp};

/// Bytes between quotes: printable ASCII as it stands; space, `"`, `\`, `*` and any other byte as `\hh`; 16 or more of one
/// byte as `\hh*count.`
pub fn quoted(bytes: &[u8]) -> String {
    let mut text = String::from("\"");
    for run in bytes.chunk_by(|a, b| a == b) {
        let (b, n) = (run[0], run.len());
        let plain = (0x21..=0x7E).contains(&b) && !b"\"\\*".contains(&b);
        let unit = if plain { (b as char).to_string() } else { format!("\\{b:02x}") };
        text += &if n < 16 { unit.repeat(n) } else { format!("\\{b:02x}*{n}.") };
    }
    text + "\""
}

pub fn tables(t: &Tables) -> String {
    let ids = |ids: &[u32]| quoted(&ids.iter().flat_map(|i| i.to_be_bytes()).collect::<Vec<u8>>());
    format!(
        "{} {} {} {} {} {} {} {} {} {} {}",
        match t.side {
            Side::Client => "client",
            Side::Server => "server",
        },
        quoted(&t.kex),
        quoted(&t.key),
        quoted(&t.certificate),
        quoted(&t.cipher),
        quoted(&t.mac),
        quoted(&t.compression),
        quoted(&t.key_kinds),
        ids(&t.key_ids),
        quoted(&t.cert_kinds),
        ids(&t.cert_ids),
    )
}

fn counters(k: &Counters) -> String {
    format!("{} {}", k.seqn, k.bytes)
}

pub fn case(c: &Case) -> String {
    let asked = match c {
        Case::ReadKex { tables: t, strict_agreed, payload } => {
            format!("{} {} {}", tables(t), *strict_agreed as u8, quoted(payload))
        }
        Case::WriteKex { tables: t, cookie } => format!("{} {}", tables(t), quoted(cookie)),
        Case::FrameRead { bytes, counters: k } => format!("{} {}", counters(k), quoted(bytes)),
        Case::FrameWrite { payload, counters: k } => format!("{} {}", counters(k), quoted(payload)),
        Case::Open { body } | Case::Confirmation { body } => quoted(body),
        Case::Fail { recipient, reason, text } => format!("{recipient} {reason} {}", quoted(text)),
        Case::UnknownType { recipient } => recipient.to_string(),
    };
    format!("{} {asked}", c.function())
}

fn tcp(t: &Tcp) -> String {
    format!("{} {} {} {}", quoted(&t.host), t.port, quoted(&t.originator), t.originator_port)
}

fn typ(t: &ChannelType) -> String {
    match t {
        ChannelType::Session => "session".into(),
        ChannelType::X11 { originator, port } => format!("x11 {} {port}", quoted(originator)),
        ChannelType::DirectTcpip(t) => format!("direct-tcpip {}", tcp(t)),
        ChannelType::DirectStreamLocal { path } => format!("direct-streamlocal {}", quoted(path)),
        ChannelType::ForwardedTcpIp(t) => format!("forwarded-tcpip {}", tcp(t)),
        ChannelType::ForwardedStreamLocal { path } => format!("forwarded-streamlocal {}", quoted(path)),
        ChannelType::AgentForward => "auth-agent".into(),
        ChannelType::Unknown { typ, rest } => format!("unknown {} {}", quoted(typ), quoted(rest)),
    }
}

pub fn answer(a: &Answer) -> String {
    if let Some(r) = a.refusal() {
        return format!("no {}{}", r.number, r.offset.map_or(String::new(), |offset| format!(" {offset}")));
    }
    match a {
        Answer::Bare(_) => "ok".into(),
        Answer::Names(Ok(n)) => format!(
            "ok {} {} {} {} {} {} {} {} {} {}",
            n.kex,
            n.key,
            n.cipher,
            n.client_mac,
            n.server_mac,
            n.client_compression,
            n.server_compression,
            n.host_key_is_certificate as u8,
            n.ignore_guessed as u8,
            n.strict_kex as u8
        ),
        Answer::Bytes(Ok(b)) => format!("ok {}", quoted(b)),
        Answer::Read(Ok(Read::Need(n))) => format!("need {n}"),
        Answer::Read(Ok(Read::Packet { payload, end, taken, counters: k })) => {
            format!("ok {} {end} {taken} {}", quoted(payload), counters(k))
        }
        Answer::Sealed(Ok((packet, k))) => format!("ok {} {}", quoted(packet), counters(k)),
        Answer::Open(Ok(o)) => format!(
            "ok {} {} {} {}",
            o.recipient_channel,
            o.recipient_window_size,
            o.recipient_maximum_packet_size,
            typ(&o.typ)
        ),
        Answer::Confirmation(Ok(c)) => format!(
            "ok {} {} {} {}",
            c.recipient_channel, c.sender_channel, c.initial_window_size, c.maximum_packet_size
        ),
        _ => unreachable!("a refusal was told"),
    }
}
