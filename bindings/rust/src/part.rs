use crate::call;
use crate::ffi::Size;
use crate::refusal::{ReadRefusal, Refusal};
use crate::size::{narrow, widen};

/// The part of `s` that has `len` bytes from `start` on: no byte is copied. An empty part at the very end lies inside.
///
/// # Errors
/// [`Refusal::PastEnd`], at offset 0, where the place does not lie inside `s`.
pub fn show(s: &[u8], start: usize, len: usize) -> Result<&[u8], ReadRefusal> {
    part(s, widen(start), widen(len))
}

/// The part at a place that the library gave.
pub(crate) fn part(s: &[u8], start: Size, len: Size) -> Result<&[u8], ReadRefusal> {
    let place = call::show(s, start, len)?;
    let start = narrow(place.start)?;
    Ok(&s[start..start + narrow(place.len)?])
}

/// A part that the library has judged to be UTF-8. It is judged once more: a wrong declaration shall not make a bad `str`.
pub(crate) fn show_text(s: &[u8], start: Size, len: Size) -> Result<&str, ReadRefusal> {
    std::str::from_utf8(part(s, start, len)?).map_err(|_| Refusal::NotUtf8.at(0))
}

/// What was written: the front of an output. What writes refuses without an offset.
pub(crate) fn front(out: &[u8], len: Size) -> Result<&[u8], Refusal> {
    part(out, 0, len).map_err(|outside| outside.refusal)
}
