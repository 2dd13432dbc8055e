//! Cases: what is asked of the oracle and of the model, the random ones made from a seed.

pub mod beyond;
pub mod captures;
pub mod channels;
pub mod cut;
pub mod exhaustive;
pub mod frames;
pub mod kex;
pub mod lines;
pub mod lists;
pub mod named;
pub mod offsets;
pub mod rng;
pub mod tables;
pub mod tried;

pub use captures::{captured, captures};
pub use tried::{document, tried};

use plain::{Confirmation, Counters, Names, Opening, Out, Read, Refusal, Tables};
use russh::door;

#[derive(Debug, Clone)]
pub enum Case {
    ReadKex { tables: Tables, strict_agreed: bool, payload: Vec<u8> },
    WriteKex { tables: Tables, cookie: [u8; 16] },
    FrameRead { bytes: Vec<u8>, counters: Counters },
    FrameWrite { payload: Vec<u8>, counters: Counters },
    Open { body: Vec<u8> },
    Confirmation { body: Vec<u8> },
    Fail { recipient: u32, reason: u8, text: Vec<u8> },
    UnknownType { recipient: u32 },
}

#[derive(Debug, Clone, PartialEq, Eq)]
pub enum Answer {
    Names(Out<Names>),
    Bytes(Out<Vec<u8>>),
    Read(Out<Read>),
    Sealed(Out<(Vec<u8>, Counters)>),
    Open(Out<Opening>),
    Confirmation(Out<Confirmation>),
    /// any of them without its values
    Bare(Out<()>),
}

impl Answer {
    pub fn refusal(&self) -> Option<Refusal> {
        match self {
            Answer::Names(Err(r))
            | Answer::Bytes(Err(r))
            | Answer::Read(Err(r))
            | Answer::Sealed(Err(r))
            | Answer::Open(Err(r))
            | Answer::Confirmation(Err(r))
            | Answer::Bare(Err(r)) => Some(*r),
            _ => None,
        }
    }

    /// the refusal's number, 0 for none
    pub fn number(&self) -> u8 {
        self.refusal().map_or(0, |r| r.number)
    }

    pub fn bare(&self) -> Answer {
        Answer::Bare(self.refusal().map_or(Ok(()), Err))
    }

    /// Whether another gives this answer too. An offset that this one does not say is not asked for: the Rust says none.
    pub fn given_by(&self, other: &Answer) -> bool {
        match (self.refusal(), other.refusal()) {
            (Some(a), Some(b)) => a.number == b.number && a.offset.is_none_or(|offset| b.offset == Some(offset)),
            _ => self == other,
        }
    }

    /// what a count of answers is kept by
    pub fn sort(&self) -> String {
        match self {
            Answer::Read(Ok(Read::Need(_))) => "need".into(),
            a if a.number() > 0 => a.number().to_string(),
            _ => "accepted".into(),
        }
    }
}

impl Case {
    pub fn function(&self) -> &'static str {
        match self {
            Case::ReadKex { .. } => "read_kex",
            Case::WriteKex { .. } => "write_kex",
            Case::FrameRead { .. } => "frame_read",
            Case::FrameWrite { .. } => "frame_write",
            Case::Open { .. } => "open",
            Case::Confirmation { .. } => "confirmation",
            Case::Fail { .. } => "fail",
            Case::UnknownType { .. } => "unknown_type",
        }
    }

    pub fn size(&self) -> usize {
        match self {
            Case::ReadKex { tables, payload, .. } => payload.len() + entries(tables),
            Case::WriteKex { tables, .. } => entries(tables),
            Case::FrameRead { bytes, .. } => bytes.len(),
            Case::FrameWrite { payload, .. } => payload.len(),
            Case::Open { body } | Case::Confirmation { body } => body.len(),
            Case::Fail { text, .. } => text.len(),
            Case::UnknownType { .. } => 0,
        }
    }

    /// the oracle's answer
    pub fn oracle(&self) -> Answer {
        match self {
            Case::ReadKex { tables, strict_agreed, payload } => {
                Answer::Names(door::read_kex(tables, *strict_agreed, payload))
            }
            Case::WriteKex { tables, cookie } => Answer::Bytes(Ok(door::write_kex(tables, cookie))),
            Case::FrameRead { bytes, counters } => Answer::Read(door::frame_read(bytes, *counters)),
            Case::FrameWrite { payload, counters } => Answer::Sealed(Ok(door::frame_write(payload, *counters))),
            Case::Open { body } => Answer::Open(door::open(body)),
            Case::Confirmation { body } => Answer::Confirmation(door::confirmation(body)),
            Case::Fail { recipient, reason, text } => Answer::Bytes(Ok(door::fail(*recipient, *reason, text))),
            Case::UnknownType { recipient } => Answer::Bytes(Ok(door::unknown_type(*recipient))),
        }
    }
}

pub fn entries(t: &Tables) -> usize {
    [&t.kex, &t.key, &t.certificate, &t.cipher, &t.mac, &t.compression, &t.key_kinds, &t.cert_kinds]
        .iter()
        .map(|l| l.len())
        .sum()
}

/// The numbers that the Rust can give, by function.
pub const NUMBERS: &[(&str, &[u8])] = &[
    ("read_kex", &[2, 3, 5, 6, 10, 11, 12, 13, 14]),
    ("frame_read", &[4, 7]),
    ("open", &[2, 3, 5, 6]),
    ("confirmation", &[2, 6]),
];
