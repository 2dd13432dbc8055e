//! Our library's functions on slices, as they are measured: nothing is looked at that a caller would not look at. The crate
//! `ours`, which looks at everything, is what the answers are compared through.

#[allow(dead_code)] // not every function is measured
#[path = "../../bindings/rust/src/ffi.rs"]
mod header;

use header::*;
use plain::{Side, Tables};

// Safety of all that follows: a slice's pointer has its length of elements behind it, and a `&mut` overlaps nothing.

#[inline(always)]
pub fn frame_read(s: &[u8]) -> Frame {
    unsafe { harupesat_frame_read(s.as_ptr(), s.len(), 0, 0) }
}

#[inline(always)]
pub fn frame_write(payload: &[u8], out: &mut [u8]) -> Sealed {
    unsafe { harupesat_frame_write(payload.as_ptr(), payload.len(), 0, 0, out.as_mut_ptr(), out.len()) }
}

#[inline(always)]
pub fn write_kex(t: &Tables, cookie: &[u8; 16], out: &mut [u8]) -> Written {
    unsafe {
        harupesat_write_kex(
            t.side == Side::Server,
            t.kex.as_ptr(),
            t.kex.len(),
            t.key.as_ptr(),
            t.key.len(),
            t.certificate.as_ptr(),
            t.certificate.len(),
            t.cipher.as_ptr(),
            t.cipher.len(),
            t.mac.as_ptr(),
            t.mac.len(),
            t.compression.as_ptr(),
            t.compression.len(),
            t.key_kinds.as_ptr(),
            t.key_kinds.len(),
            t.key_ids.as_ptr(),
            t.key_ids.len(),
            t.cert_kinds.as_ptr(),
            t.cert_kinds.len(),
            t.cert_ids.as_ptr(),
            t.cert_ids.len(),
            cookie.as_ptr(),
            cookie.len(),
            out.as_mut_ptr(),
            out.len(),
        )
    }
}

#[inline(always)]
pub fn read_kex(t: &Tables, payload: &[u8]) -> Names {
    unsafe {
        harupesat_read_kex(
            t.side == Side::Server,
            t.kex.as_ptr(),
            t.kex.len(),
            t.key.as_ptr(),
            t.key.len(),
            t.certificate.as_ptr(),
            t.certificate.len(),
            t.cipher.as_ptr(),
            t.cipher.len(),
            t.mac.as_ptr(),
            t.mac.len(),
            t.compression.as_ptr(),
            t.compression.len(),
            t.key_kinds.as_ptr(),
            t.key_kinds.len(),
            t.key_ids.as_ptr(),
            t.key_ids.len(),
            t.cert_kinds.as_ptr(),
            t.cert_kinds.len(),
            t.cert_ids.as_ptr(),
            t.cert_ids.len(),
            false,
            payload.as_ptr(),
            payload.len(),
        )
    }
}

#[inline(always)]
pub fn open(body: &[u8]) -> Open {
    unsafe { harupesat_read_open(body.as_ptr(), body.len()) }
}

#[inline(always)]
pub fn confirmation(body: &[u8]) -> Confirmation {
    unsafe { harupesat_read_confirmation(body.as_ptr(), body.len()) }
}

#[inline(always)]
pub fn fail(recipient: u32, reason: u8, text: &[u8], out: &mut [u8]) -> Written {
    unsafe { harupesat_fail(recipient, reason, text.as_ptr(), text.len(), out.as_mut_ptr(), out.len()) }
}

#[inline(always)]
pub fn unknown_type(recipient: u32, out: &mut [u8]) -> Written {
    unsafe { harupesat_unknown_type(recipient, out.as_mut_ptr(), out.len()) }
}

#[inline(always)]
pub fn lookup(kind: u8, name: &[u8]) -> Found {
    unsafe { harupesat_lookup(kind, name.as_ptr(), name.len()) }
}
