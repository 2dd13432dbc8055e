//! include/harupesat.h once more, in Rust: fields, functions and parameters stand as they do there.
//!
//! It is all that Rust knows of the header. The wrapper has it as a module, and so have the comparison (oracle/src/ours)
//! and the measurements (bench/src/library.rs), by its path: so nothing here leans on another file.

#![allow(dead_code)] // each of them takes what it needs

/// A count or a place: 64 bits on every processor, as the library has them.
#[cfg(target_pointer_width = "64")]
pub type Size = usize;
#[cfg(target_pointer_width = "32")]
pub type Size = u64;

pub const REFUSED: u8 = 0;
pub const DONE: u8 = 1;
pub const NEED: u8 = 2;
pub const UNKNOWN: u8 = 3;

#[repr(C)]
#[derive(Clone, Copy, Debug, Default, PartialEq, Eq)]
pub struct Frame {
    pub what: u8,
    pub number: u8,
    pub offset: Size,
    pub need: Size,
    pub start: Size,
    pub len: Size,
    pub end: Size,
    pub taken: Size,
    pub seqn: u32,
    pub bytes: u64,
}

#[repr(C)]
#[derive(Clone, Copy, Debug, Default, PartialEq, Eq)]
pub struct Sealed {
    pub what: u8,
    pub number: u8,
    pub len: Size,
    pub seqn: u32,
    pub bytes: u64,
}

#[repr(C)]
#[derive(Clone, Copy, Debug, Default, PartialEq, Eq)]
pub struct Written {
    pub what: u8,
    pub number: u8,
    pub len: Size,
}

/// The header's bools are bytes here: a `bool` that is neither 0 nor 1 would be undefined behaviour, whoever made it.
#[repr(C)]
#[derive(Clone, Copy, Debug, Default, PartialEq, Eq)]
pub struct Names {
    pub what: u8,
    pub number: u8,
    pub offset: Size,
    pub kex: u8,
    pub key: u8,
    pub cipher: u8,
    pub client_mac: u8,
    pub server_mac: u8,
    pub client_compression: u8,
    pub server_compression: u8,
    pub host_key_is_certificate: u8,
    pub ignore_guessed: u8,
    pub strict_kex: u8,
}

#[repr(C)]
#[derive(Clone, Copy, Debug, Default, PartialEq, Eq)]
pub struct Open {
    pub what: u8,
    pub number: u8,
    pub offset: Size,
    pub typ: u8,
    pub recipient_channel: u32,
    pub recipient_window_size: u32,
    pub recipient_maximum_packet_size: u32,
    pub text_start: Size,
    pub text_len: Size,
    pub port: u32,
    pub originator_start: Size,
    pub originator_len: Size,
    pub originator_port: u32,
    pub rest_start: Size,
    pub rest_len: Size,
}

#[repr(C)]
#[derive(Clone, Copy, Debug, Default, PartialEq, Eq)]
pub struct Confirmation {
    pub what: u8,
    pub number: u8,
    pub offset: Size,
    pub recipient_channel: u32,
    pub sender_channel: u32,
    pub initial_window_size: u32,
    pub maximum_packet_size: u32,
}

#[repr(C)]
#[derive(Clone, Copy, Debug, Default, PartialEq, Eq)]
pub struct Shown {
    pub what: u8,
    pub number: u8,
    pub offset: Size,
    pub start: Size,
    pub len: Size,
}

#[repr(C)]
#[derive(Clone, Copy, Debug, Default, PartialEq, Eq)]
pub struct Found {
    pub what: u8,
    pub number: u8,
    pub value: u8,
}

#[repr(C)]
#[derive(Clone, Copy, Debug, Default, PartialEq, Eq)]
pub struct Flag {
    pub what: u8,
    pub number: u8,
    pub value: u8,
}

#[rustfmt::skip]
unsafe extern "C" {
    pub fn harupesat_frame_read(s: *const u8, s_len: Size, seqn: u32, bytes: u64) -> Frame;
    pub fn harupesat_frame_write(payload: *const u8, payload_len: Size, seqn: u32, bytes: u64,
                                 out: *mut u8, out_len: Size) -> Sealed;
    pub fn harupesat_write_kex(server: bool,
                               kex: *const u8, kex_len: Size,
                               key: *const u8, key_len: Size,
                               certificate: *const u8, certificate_len: Size,
                               cipher: *const u8, cipher_len: Size,
                               mac: *const u8, mac_len: Size,
                               compression: *const u8, compression_len: Size,
                               key_kinds: *const u8, key_kinds_len: Size,
                               key_ids: *const u32, key_ids_len: Size,
                               cert_kinds: *const u8, cert_kinds_len: Size,
                               cert_ids: *const u32, cert_ids_len: Size,
                               cookie: *const u8, cookie_len: Size,
                               out: *mut u8, out_len: Size) -> Written;
    pub fn harupesat_read_kex(server: bool,
                              kex: *const u8, kex_len: Size,
                              key: *const u8, key_len: Size,
                              certificate: *const u8, certificate_len: Size,
                              cipher: *const u8, cipher_len: Size,
                              mac: *const u8, mac_len: Size,
                              compression: *const u8, compression_len: Size,
                              key_kinds: *const u8, key_kinds_len: Size,
                              key_ids: *const u32, key_ids_len: Size,
                              cert_kinds: *const u8, cert_kinds_len: Size,
                              cert_ids: *const u32, cert_ids_len: Size,
                              strict_agreed: bool,
                              payload: *const u8, payload_len: Size) -> Names;
    pub fn harupesat_read_open(body: *const u8, body_len: Size) -> Open;
    pub fn harupesat_read_confirmation(body: *const u8, body_len: Size) -> Confirmation;
    pub fn harupesat_fail(recipient: u32, reason: u8, text: *const u8, text_len: Size,
                          out: *mut u8, out_len: Size) -> Written;
    pub fn harupesat_unknown_type(recipient: u32, out: *mut u8, out_len: Size) -> Written;
    pub fn harupesat_show(s: *const u8, s_len: Size, start: Size, len: Size) -> Shown;
    pub fn harupesat_spelling(kind: u8, number: u8, out: *mut u8, out_len: Size) -> Written;
    pub fn harupesat_lookup(kind: u8, name: *const u8, name_len: Size) -> Found;
    pub safe fn harupesat_needs_mac(cipher: u8) -> Flag;
    pub safe fn harupesat_built_in_integrity(cipher: u8) -> Flag;
    pub fn harupesat_default_list(kind: u8, out: *mut u8, out_len: Size) -> Written;
}
