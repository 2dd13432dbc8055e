//! crates/negotiation/specs: KexInit, Written, Read

use crate::answer::{Out, guard, refuse_at};
use crate::choice::{both_first, chosen, listed};
use crate::names::{Kind, need_mac, number_of, spelled};
use crate::preferred::{chosen_kex, cipher_list, compression_list, key_list, mac_list, strict_name, valid, written_kex};
use crate::put;
use crate::wire::{At, Name, byte, cut, end, here, join, name_list, string, word};
use plain::{Names, Tables};

pub const MOST_PAYLOAD: usize = 262176;

/// a name-list field, as its names, and where it stands
struct Offer<'a> {
    names: Vec<Name<'a>>,
    at: usize,
}

fn offer(c: At) -> Out<(Offer, At)> {
    let (t, d) = name_list(c)?;
    Ok((Offer { names: cut(t.bytes), at: c.at }, d))
}

/// 10 to 14 are at the peer's list that they are about
fn settle<'a>(n: u8, list: &Offer, name: Option<Name<'a>>) -> Out<Name<'a>> {
    match name {
        None => refuse_at(n, list.at),
        Some(name) => Ok(name),
    }
}

fn number(k: Kind, name: Name) -> u8 {
    number_of(k, name).unwrap_or(0)
}

fn needs_mac(cipher: Name) -> bool {
    need_mac(number(Kind::Cipher, cipher))
}

fn settle_mac<'a>(cipher: Name, list: &Offer, mac: Option<Name<'a>>) -> Out<Name<'a>> {
    match mac {
        None if needs_mac(cipher) => refuse_at(13, list.at),
        None => Ok(b"none"),
        Some(mac) if needs_mac(cipher) && mac == b"none" => refuse_at(13, list.at),
        Some(mac) => Ok(mac),
    }
}

fn strict(t: &Tables, strict_agreed: bool, peer: &[Name]) -> bool {
    t.kex.contains(&strict_name(t.side)) && listed(spelled(Kind::Kex, strict_name(t.side.other())), peer) || strict_agreed
}

fn is_certificate(name: Name) -> bool {
    number_of(Kind::Certificate, name).is_some()
}

fn key_number(name: Name) -> u8 {
    number(if is_certificate(name) { Kind::Certificate } else { Kind::Key }, name)
}

pub fn read_kex(t: &Tables, strict_agreed: bool, p: &[u8]) -> Out<Names> {
    guard(9, valid(t))?;
    guard(1, p.len() <= MOST_PAYLOAD)?;
    guard(6, 17 <= p.len())?;
    let (kexes, c1) = offer(here(p, 17))?;
    let kex = settle(10, &kexes, chosen(t.side, &chosen_kex(t), &kexes.names))?;
    let (keys, c2) = offer(c1)?;
    let key = settle(11, &keys, chosen(t.side, &key_list(t), &keys.names))?;
    let (ciphers, c3) = offer(c2)?;
    let cipher = settle(12, &ciphers, chosen(t.side, &cipher_list(t), &ciphers.names))?;
    let (_, c4) = string(c3)?;
    let (macs, c5) = offer(c4)?;
    let client_mac = settle_mac(cipher, &macs, chosen(t.side, &mac_list(t), &macs.names))?;
    let (macs2, c6) = offer(c5)?;
    let server_mac = settle_mac(cipher, &macs2, chosen(t.side, &mac_list(t), &macs2.names))?;
    let (compressions, c7) = offer(c6)?;
    let client_compression = settle(14, &compressions, chosen(t.side, &compression_list(t), &compressions.names))?;
    let (compressions2, c8) = offer(c7)?;
    let server_compression = settle(14, &compressions2, chosen(t.side, &compression_list(t), &compressions2.names))?;
    let (_, c9) = string(c8)?;
    let (_, c10) = string(c9)?;
    let (follows, c11) = byte(c10)?;
    let (_, c12) = word(c11)?;
    end(c12)?;
    Ok(Names {
        kex: number(Kind::Kex, kex),
        key: key_number(key),
        cipher: number(Kind::Cipher, cipher),
        client_mac: number(Kind::Mac, client_mac),
        server_mac: number(Kind::Mac, server_mac),
        client_compression: number(Kind::Compression, client_compression),
        server_compression: number(Kind::Compression, server_compression),
        host_key_is_certificate: is_certificate(key),
        ignore_guessed: follows != 0
            && !(both_first(&chosen_kex(t), &kexes.names) && both_first(&key_list(t), &keys.names)),
        strict_kex: strict(t, strict_agreed, &kexes.names),
    })
}

fn list_field(names: &[Name]) -> Vec<u8> {
    let list = join(names);
    [put::word(list.len() as u64), list].concat()
}

/// "20, cookie, kex, key, cipher twice, MAC twice, compression twice, two empty language lists, byte 0, u32 0"
pub fn kex_init(t: &Tables, cookie: &[u8]) -> Vec<u8> {
    [
        vec![20],
        cookie.to_vec(),
        list_field(&written_kex(t)),
        list_field(&key_list(t)),
        list_field(&cipher_list(t)),
        list_field(&cipher_list(t)),
        list_field(&mac_list(t)),
        list_field(&mac_list(t)),
        list_field(&compression_list(t)),
        list_field(&compression_list(t)),
        put::word(0),
        put::word(0),
        vec![0],
        put::word(0),
    ]
    .concat()
}

pub fn write_kex(t: &Tables, cookie: &[u8]) -> Out<Vec<u8>> {
    guard(9, valid(t) && cookie.len() == 16)?;
    Ok(kex_init(t, cookie))
}
