//! Where a refusal stands: examples of request No. 6 (document 02), worked out by hand from documents 01 and 02. Bytes and
//! answers are written out, and made by nothing that is compared.

use crate::Case;
use crate::beyond::Beyond;
use crate::kex::full;
use plain::{Counters, Refusal, Side, Tables};

pub struct Example {
    /// a reader's case, or a place to be shown
    pub asked: Beyond,
    pub says: Refusal,
}

impl Example {
    fn new(asked: Beyond, (number, offset): (u8, usize)) -> Example {
        Example { asked, says: Refusal { number, offset: Some(offset) } }
    }

    /// what the Rust can be asked: not for numbers 1 and 9, nor for what is shown
    pub fn case(&self) -> Option<&Case> {
        match &self.asked {
            Beyond::Reading(case) if ![1, 9].contains(&self.says.number) => Some(case),
            _ => None,
        }
    }
}

/// The KEXINIT of 182 bytes, field by field, and where each field starts.
const KEXINIT: [(usize, &[u8]); 13] = [
    (0, b"\x14\x07\x07\x07\x07\x07\x07\x07\x07\x07\x07\x07\x07\x07\x07\x07\x07"),
    (17, b"\x00\x00\x00\x11curve25519-sha256"),
    (38, b"\x00\x00\x00\x0Bssh-ed25519"),
    (53, b"\x00\x00\x00\x1Dchacha20-poly1305@openssh.com"),
    (86, b"\x00\x00\x00\x1Dchacha20-poly1305@openssh.com"),
    (119, b"\x00\x00\x00\x0Dhmac-sha2-256"),
    (136, b"\x00\x00\x00\x0Dhmac-sha2-256"),
    (153, b"\x00\x00\x00\x04none"),
    (161, b"\x00\x00\x00\x04none"),
    (169, b"\x00\x00\x00\x00"),
    (173, b"\x00\x00\x00\x00"),
    (177, b"\x00"),
    (178, b"\x00\x00\x00\x00"),
];

const KEX: usize = 17;
const KEY: usize = 38;
const CIPHER_CLIENT: usize = 53;
const CIPHER_SERVER: usize = 86;
const MAC_CLIENT: usize = 119;
const MAC_SERVER: usize = 136;
const COMPRESSION_CLIENT: usize = 153;
const COMPRESSION_SERVER: usize = 161;
const LANGUAGE: usize = 169;

/// It with other bytes for the fields that start there.
fn kexinit(fields: &[(usize, &[u8])]) -> Vec<u8> {
    let field = |(at, bytes): &(usize, &[u8])| fields.iter().find(|(a, _)| a == at).map_or(*bytes, |(_, b)| b).to_vec();
    KEXINIT.iter().flat_map(field).collect()
}

const CTR: &[u8] = b"\x00\x00\x00\x0Aaes128-ctr";
const NONE: &[u8] = b"\x00\x00\x00\x04none";
const ZLIB: &[u8] = b"\x00\x00\x00\x04zlib";
const FOO: &[u8] = b"\x00\x00\x00\x03foo";
const FF: &[u8] = b"\x00\x00\x00\x01\xFF";

/// Payloads that are refused the same by both sides, and where.
fn payloads() -> Vec<(Vec<u8>, (u8, usize))> {
    let whole = kexinit(&[]);
    assert_eq!(whole.len(), 182, "document 01's KEXINIT");
    let mut all: Vec<(Vec<u8>, (u8, usize))> = [
        (16, (6, 0)),
        (17, (2, 17)),
        (20, (2, 17)),
        (21, (2, 17)),
        (37, (2, 17)),
        (38, (2, 38)),
        (177, (2, 177)),
        (178, (2, 178)),
        (181, (2, 178)),
    ]
    .map(|(len, says)| (whole[..len].to_vec(), says))
    .into();
    all.push(([&whole[..], &[0]].concat(), (5, 182)));
    let long = [&b"\x00\x00\x40\x01"[..], &[b'a'; 16385]].concat();
    let ctr = |mac, bytes| kexinit(&[(CIPHER_CLIENT, CTR), (CIPHER_SERVER, CTR), (mac, bytes)]);
    all.extend([
        (kexinit(&[(KEX, FOO)]), (10, 17)),
        (kexinit(&[(KEX, b"\x00\x00\x00\x04a,,b")]), (3, 17)),
        (kexinit(&[(KEX, &long)]), (2, 17)),
        (kexinit(&[(KEY, FOO)]), (11, 38)),
        (kexinit(&[(CIPHER_CLIENT, FOO)]), (12, 53)),
        (kexinit(&[(CIPHER_SERVER, FF)]), (3, 86)),
        (kexinit(&[(MAC_SERVER, FF)]), (3, 136)),
        (ctr(MAC_CLIENT, NONE), (13, 81)),
        (ctr(MAC_SERVER, NONE), (13, 98)),
        (kexinit(&[(COMPRESSION_CLIENT, ZLIB), (COMPRESSION_SERVER, ZLIB)]), (14, 153)),
        (kexinit(&[(COMPRESSION_SERVER, ZLIB)]), (14, 161)),
        (kexinit(&[(LANGUAGE, FF)]), (3, 169)),
        ([&[20][..], &[0; 262176]].concat(), (1, 0)),
    ]);
    all
}

fn read_kex(tables: Tables, payload: Vec<u8>, says: (u8, usize)) -> Example {
    Example::new(Beyond::Reading(Case::ReadKex { tables, strict_agreed: false, payload }), says)
}

const SESSION: &[u8] = b"\x00\x00\x00\x07session\x00\x00\x00\x00\x00\x20\x00\x00\x00\x00\x80\x00";
const NO_PACKET: &[u8] = b"\x00\x00\x00\x07session\x00\x00\x00\x00\x00\x20\x00\x00\x00\x00\x00\x00\x00";

/// type, sender 0, window 2097152, maximum packet size 32768; the host stands at 28
const DIRECT: &[u8] = b"\x00\x00\x00\x0Cdirect-tcpip\x00\x00\x00\x00\x00\x20\x00\x00\x00\x00\x80\x00";
const LOCALHOST_22: &[u8] = b"\x00\x00\x00\x09localhost\x00\x00\x00\x16";
const FROM_1234: &[u8] = b"\x00\x00\x00\x0810.0.0.1\x00\x00\x04\xD2";

fn bodies() -> Vec<Example> {
    let direct = [DIRECT, LOCALHOST_22, FROM_1234].concat();
    assert_eq!((SESSION.len(), direct.len()), (23, 61), "the bodies of the examples");
    let open = |body: Vec<u8>, says| Example::new(Beyond::Reading(Case::Open { body }), says);
    let confirmation = |len, says| Example::new(Beyond::Reading(Case::Confirmation { body: vec![0; len] }), says);
    vec![
        open(vec![], (2, 0)),
        open(SESSION[..22].to_vec(), (2, 19)),
        open([SESSION, &[0]].concat(), (5, 23)),
        open(NO_PACKET.to_vec(), (6, 19)),
        open([DIRECT, FF, b"\x00\x00\x00\x16", FROM_1234].concat(), (3, 28)),
        open([DIRECT, LOCALHOST_22, FF, b"\x00\x00\x04\xD2"].concat(), (3, 45)),
        open(direct[..60].to_vec(), (2, 57)),
        open([&direct[..], &[0]].concat(), (5, 61)),
        confirmation(15, (2, 12)),
        confirmation(16, (6, 12)),
        open(vec![0; 262176], (1, 0)),
        confirmation(262176, (1, 0)),
        Example::new(Beyond::Show { bytes: vec![0; 5], start: 5, len: 1 }, (2, 0)),
    ]
}

/// P8 and P5 of document 01
fn frames() -> Vec<Example> {
    let counters = Counters { seqn: 0, bytes: 0 };
    [([0, 4, 0, 0x22].to_vec(), (4, 0)), ([0, 0, 0, 1, 2].to_vec(), (7, 4))]
        .map(|(bytes, says)| Example::new(Beyond::Reading(Case::FrameRead { bytes, counters }), says))
        .into()
}

pub fn examples() -> Vec<Example> {
    let mut all = Vec::new();
    for side in [Side::Client, Side::Server] {
        all.extend(payloads().into_iter().map(|(payload, says)| read_kex(full(side), payload, says)));
        let mut outside = full(side);
        outside.kex = vec![13];
        all.push(read_kex(outside, kexinit(&[]), (9, 0)));
    }
    all.extend(bodies());
    all.extend(frames());
    all
}
