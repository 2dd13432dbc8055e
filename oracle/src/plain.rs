//! What a case lends and what an answer says, in plain numbers and bytes (document 01), so that the oracle and the model
//! can be compared without sharing anything else.

#[derive(Debug, Clone, Copy, PartialEq, Eq)]
pub enum Side {
    Client,
    Server,
}

impl Side {
    pub fn other(self) -> Side {
        match self {
            Side::Client => Side::Server,
            Side::Server => Side::Client,
        }
    }
}

/// The local tables: six preference lists of numbers, and a server's rows as two columns each.
#[derive(Debug, Clone, PartialEq, Eq)]
pub struct Tables {
    pub side: Side,
    pub kex: Vec<u8>,
    pub key: Vec<u8>,
    pub certificate: Vec<u8>,
    pub cipher: Vec<u8>,
    pub mac: Vec<u8>,
    pub compression: Vec<u8>,
    pub key_kinds: Vec<u8>,
    pub key_ids: Vec<u32>,
    pub cert_kinds: Vec<u8>,
    pub cert_ids: Vec<u32>,
}

/// A refusal: its number, and of a reader's where the offending field starts. A writer's says no place, nor does the Rust.
#[derive(Debug, Clone, Copy, PartialEq, Eq)]
pub struct Refusal {
    pub number: u8,
    pub offset: Option<usize>,
}

impl From<u8> for Refusal {
    fn from(number: u8) -> Refusal {
        Refusal { number, offset: None }
    }
}

/// A refusal, or the values.
pub type Out<T> = Result<T, Refusal>;

#[derive(Debug, Clone, Copy, PartialEq, Eq)]
pub struct Counters {
    pub seqn: u32,
    pub bytes: u64,
}

#[derive(Debug, Clone, PartialEq, Eq)]
pub enum Read {
    Need(usize),
    Packet { payload: Vec<u8>, end: usize, taken: usize, counters: Counters },
}

#[derive(Debug, Clone, PartialEq, Eq)]
pub struct Names {
    pub kex: u8,
    pub key: u8,
    pub cipher: u8,
    pub client_mac: u8,
    pub server_mac: u8,
    pub client_compression: u8,
    pub server_compression: u8,
    pub host_key_is_certificate: bool,
    pub ignore_guessed: bool,
    pub strict_kex: bool,
}

#[derive(Debug, Clone, PartialEq, Eq)]
pub struct Tcp {
    pub host: Vec<u8>,
    pub port: u32,
    pub originator: Vec<u8>,
    pub originator_port: u32,
}

#[derive(Debug, Clone, PartialEq, Eq)]
pub enum ChannelType {
    Session,
    X11 { originator: Vec<u8>, port: u32 },
    DirectTcpip(Tcp),
    DirectStreamLocal { path: Vec<u8> },
    ForwardedTcpIp(Tcp),
    ForwardedStreamLocal { path: Vec<u8> },
    AgentForward,
    Unknown { typ: Vec<u8>, rest: Vec<u8> },
}

#[derive(Debug, Clone, PartialEq, Eq)]
pub struct Opening {
    pub typ: ChannelType,
    pub recipient_channel: u32,
    pub recipient_window_size: u32,
    pub recipient_maximum_packet_size: u32,
}

#[derive(Debug, Clone, PartialEq, Eq)]
pub struct Confirmation {
    pub recipient_channel: u32,
    pub sender_channel: u32,
    pub initial_window_size: u32,
    pub maximum_packet_size: u32,
}
