//! Our static library, asked through include/harupesat.h: plain numbers and bytes in and out (src/plain.rs), as the
//! oracle's door and the model speak them. lender.rs says from where slices are lent.

mod bites;
#[path = "../../../bindings/rust/src/ffi.rs"]
mod header;
mod lender;
mod region;

pub use bites::bites;
pub use names::*;

use header::*;
use lender::{reading, writing};
use plain::{ChannelType, Counters, Opening, Out, Read, Refusal, Side, Tables, Tcp};

/// In a refusal's place: the struct is none that the header allows (an unused field that is not 0, a flag that is no bool,
/// a place outside the slice lent, a number that no refusal carries).
pub const MALFORMED: u8 = 255;

/// where a text stands: start and length
pub type Place = (usize, usize);

/// Goes on where the answer is no refusal; a refusal holds its number, a reader's (`offset`) where, and nothing else.
macro_rules! accepted {
    ($answer:expr, $type:ident $(, $offset:ident)?) => {{
        let answer = $answer;
        if answer.what == REFUSED {
            let allowed = answer == $type { number: answer.number, $($offset: answer.$offset,)? ..$type::default() };
            if !allowed || !(1..=14).contains(&answer.number) {
                return Err(MALFORMED.into());
            }
            let said: &[usize] = &[$(answer.$offset)?];
            return Err(Refusal { number: answer.number, offset: said.first().copied() });
        }
        answer
    }};
}

mod names; // after the macro, which it uses

fn exactly<T: PartialEq>(answer: T, allowed: T) -> Out<()> {
    if answer == allowed { Ok(()) } else { Err(MALFORMED.into()) }
}

fn flag(byte: u8) -> Out<bool> {
    match byte {
        0 => Ok(false),
        1 => Ok(true),
        _ => Err(MALFORMED.into()),
    }
}

fn part(s: &[u8], (start, len): Place) -> Out<Vec<u8>> {
    let end = start.checked_add(len).ok_or(MALFORMED)?;
    s.get(start..end).map(|part| part.to_vec()).ok_or(MALFORMED.into())
}

fn written(answer: Written) -> Out<usize> {
    let a = accepted!(answer, Written);
    let len = a.len;
    exactly(a, Written { what: DONE, number: 0, len })?;
    Ok(len)
}

/// the packet, and where its payload stands
pub fn frame_read(s: &[u8], k: Counters) -> Out<(Read, Place)> {
    let a = accepted!(reading(|l| unsafe { harupesat_frame_read(l.lend(s), s.len(), k.seqn, k.bytes) })?, Frame, offset);
    if a.what == NEED {
        let need = a.need;
        exactly(a, Frame { what: NEED, need, ..Frame::default() })?;
        return Ok((Read::Need(need), (0, 0)));
    }
    let place = (a.start, a.len);
    let read = Read::Packet {
        payload: part(s, place)?,
        end: a.end,
        taken: a.taken,
        counters: Counters { seqn: a.seqn, bytes: a.bytes },
    };
    exactly((a.what, a.number, a.offset, a.need), (DONE, 0, 0, 0))?;
    Ok((read, place))
}

pub fn frame_write(payload: &[u8], k: Counters, out: &mut [u8]) -> Out<(usize, Counters)> {
    let answer = writing(out, |l, out, len| unsafe {
        harupesat_frame_write(l.lend(payload), payload.len(), k.seqn, k.bytes, out, len)
    });
    let a = accepted!(answer?, Sealed);
    exactly((a.what, a.number), (DONE, 0))?;
    Ok((a.len, Counters { seqn: a.seqn, bytes: a.bytes }))
}

pub fn write_kex(t: &Tables, cookie: &[u8], out: &mut [u8]) -> Out<usize> {
    written(writing(out, |l, out, len| unsafe {
        harupesat_write_kex(
            t.side == Side::Server,
            l.lend(&t.kex),
            t.kex.len(),
            l.lend(&t.key),
            t.key.len(),
            l.lend(&t.certificate),
            t.certificate.len(),
            l.lend(&t.cipher),
            t.cipher.len(),
            l.lend(&t.mac),
            t.mac.len(),
            l.lend(&t.compression),
            t.compression.len(),
            l.lend(&t.key_kinds),
            t.key_kinds.len(),
            l.lend(&t.key_ids),
            t.key_ids.len(),
            l.lend(&t.cert_kinds),
            t.cert_kinds.len(),
            l.lend(&t.cert_ids),
            t.cert_ids.len(),
            l.lend(cookie),
            cookie.len(),
            out,
            len,
        )
    })?)
}

pub fn read_kex(t: &Tables, strict_agreed: bool, payload: &[u8]) -> Out<plain::Names> {
    let answer = reading(|l| unsafe {
        harupesat_read_kex(
            t.side == Side::Server,
            l.lend(&t.kex),
            t.kex.len(),
            l.lend(&t.key),
            t.key.len(),
            l.lend(&t.certificate),
            t.certificate.len(),
            l.lend(&t.cipher),
            t.cipher.len(),
            l.lend(&t.mac),
            t.mac.len(),
            l.lend(&t.compression),
            t.compression.len(),
            l.lend(&t.key_kinds),
            t.key_kinds.len(),
            l.lend(&t.key_ids),
            t.key_ids.len(),
            l.lend(&t.cert_kinds),
            t.cert_kinds.len(),
            l.lend(&t.cert_ids),
            t.cert_ids.len(),
            strict_agreed,
            l.lend(payload),
            payload.len(),
        )
    });
    let a = accepted!(answer?, Names, offset);
    exactly((a.what, a.number, a.offset), (DONE, 0, 0))?;
    Ok(plain::Names {
        kex: a.kex,
        key: a.key,
        cipher: a.cipher,
        client_mac: a.client_mac,
        server_mac: a.server_mac,
        client_compression: a.client_compression,
        server_compression: a.server_compression,
        host_key_is_certificate: flag(a.host_key_is_certificate)?,
        ignore_guessed: flag(a.ignore_guessed)?,
        strict_kex: flag(a.strict_kex)?,
    })
}

/// the fields that a type uses, the others being 0
fn used(a: &Open) -> Open {
    let all = Open {
        what: DONE,
        number: 0,
        typ: a.typ,
        recipient_channel: a.recipient_channel,
        recipient_window_size: a.recipient_window_size,
        recipient_maximum_packet_size: a.recipient_maximum_packet_size,
        ..Open::default()
    };
    match a.typ {
        1 => Open {
            originator_start: a.originator_start,
            originator_len: a.originator_len,
            originator_port: a.originator_port,
            ..all
        },
        2 | 4 => Open {
            text_start: a.text_start,
            text_len: a.text_len,
            port: a.port,
            originator_start: a.originator_start,
            originator_len: a.originator_len,
            originator_port: a.originator_port,
            ..all
        },
        3 | 5 => Open { text_start: a.text_start, text_len: a.text_len, ..all },
        7 => Open {
            text_start: a.text_start,
            text_len: a.text_len,
            rest_start: a.rest_start,
            rest_len: a.rest_len,
            ..all
        },
        _ => all,
    }
}

/// the message, and where its text, its originator and its rest stand
pub fn open(body: &[u8]) -> Out<(Opening, [Place; 3])> {
    let a = accepted!(reading(|l| unsafe { harupesat_read_open(l.lend(body), body.len()) })?, Open, offset);
    let places = [
        (a.text_start, a.text_len),
        (a.originator_start, a.originator_len),
        (a.rest_start, a.rest_len),
    ];
    let [text, originator, rest] = places;
    let tcp = || -> Out<Tcp> {
        Ok(Tcp {
            host: part(body, text)?,
            port: a.port,
            originator: part(body, originator)?,
            originator_port: a.originator_port,
        })
    };
    let typ = match a.typ {
        0 => ChannelType::Session,
        1 => ChannelType::X11 { originator: part(body, originator)?, port: a.originator_port },
        2 => ChannelType::DirectTcpip(tcp()?),
        3 => ChannelType::DirectStreamLocal { path: part(body, text)? },
        4 => ChannelType::ForwardedTcpIp(tcp()?),
        5 => ChannelType::ForwardedStreamLocal { path: part(body, text)? },
        6 => ChannelType::AgentForward,
        7 => ChannelType::Unknown { typ: part(body, text)?, rest: part(body, rest)? },
        _ => return Err(MALFORMED.into()),
    };
    let opening = Opening {
        typ,
        recipient_channel: a.recipient_channel,
        recipient_window_size: a.recipient_window_size,
        recipient_maximum_packet_size: a.recipient_maximum_packet_size,
    };
    let allowed = used(&a);
    exactly(a, allowed)?;
    Ok((opening, places))
}

pub fn confirmation(body: &[u8]) -> Out<plain::Confirmation> {
    let answer = reading(|l| unsafe { harupesat_read_confirmation(l.lend(body), body.len()) });
    let a = accepted!(answer?, Confirmation, offset);
    exactly((a.what, a.number, a.offset), (DONE, 0, 0))?;
    Ok(plain::Confirmation {
        recipient_channel: a.recipient_channel,
        sender_channel: a.sender_channel,
        initial_window_size: a.initial_window_size,
        maximum_packet_size: a.maximum_packet_size,
    })
}

pub fn fail(recipient: u32, reason: u8, text: &[u8], out: &mut [u8]) -> Out<usize> {
    written(writing(out, |l, out, len| unsafe {
        harupesat_fail(recipient, reason, l.lend(text), text.len(), out, len)
    })?)
}

pub fn unknown_type(recipient: u32, out: &mut [u8]) -> Out<usize> {
    written(writing(out, |_, out, len| unsafe { harupesat_unknown_type(recipient, out, len) })?)
}

/// the part of s at a place; the place handed back is the one asked for
pub fn show(s: &[u8], (start, len): Place) -> Out<Vec<u8>> {
    let a = accepted!(reading(|l| unsafe { harupesat_show(l.lend(s), s.len(), start, len) })?, Shown, offset);
    exactly(a, Shown { what: DONE, number: 0, offset: 0, start, len })?;
    part(s, (start, len))
}
