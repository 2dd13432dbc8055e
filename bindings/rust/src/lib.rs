#![doc = include_str!("../README.md")]
#![deny(missing_docs, unsafe_code, unsafe_op_in_unsafe_fn)]

#[allow(unsafe_code)]
mod call;
mod channel;
mod constants;
#[allow(unsafe_code)]
mod ffi;
mod kex;
mod kind;
#[cfg(test)]
mod layout;
mod name;
mod packet;
mod part;
mod refusal;
mod size;
mod tables;

pub use channel::{ChannelOpen, ChannelType, Confirmation, TcpChannelInfo};
pub use channel::{fail, read_confirmation, read_open, unknown_type};
pub use kex::{KEXINIT_ROOM, Names};
pub use kind::{Certificate, Cipher, Compression, Kex, Key, Kind, Mac};
pub use name::{CertificateName, CipherName, CompressionName, KexName, KeyName, MacName, Name, UnknownName};
pub use packet::{Counters, Frame, MOST_PAYLOAD, PACKET_ROOM, Packet, Sealed, read_packet, write_packet};
pub use part::show;
pub use refusal::{ReadRefusal, Refusal};
pub use tables::{KeyKind, Side, Tables};
