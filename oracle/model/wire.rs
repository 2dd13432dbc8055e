//! crates/commas/specs: Cut; crates/wire/specs: Fields, Walk, Shown; crates/namelist/specs: Judged

use crate::answer::{Out, guard, guard_at, placed};
use crate::text::{ascii, utf8};

pub type Name<'a> = &'a [u8];

/// How far a reader is in the input, and what is left from there on.
#[derive(Clone, Copy)]
pub struct At<'a> {
    pub at: usize,
    pub left: &'a [u8],
}

/// at a position of s; past the end nothing is left
pub fn here(s: &[u8], n: usize) -> At<'_> {
    At { at: n, left: s.get(n..).unwrap_or(&[]) }
}

fn skip(n: usize, c: At) -> At {
    At { at: c.at + n, left: c.left.get(n..).unwrap_or(&[]) }
}

#[derive(Debug, Clone, Copy, PartialEq, Eq)]
pub struct Place {
    pub start: usize,
    pub len: usize,
}

#[derive(Clone, Copy)]
pub struct Run<'a> {
    pub place: Place,
    pub bytes: &'a [u8],
}

/// whatever is wrong with a field, it is refused at its first byte, which is the first of its length (document 02, No. 6)
fn field<'a, A>(c: At<'a>, read: impl Fn(At<'a>) -> Out<A>) -> Out<A> {
    placed(c.at, read(c))
}

pub fn byte(c: At) -> Out<(u8, At)> {
    field(c, |c| {
        guard(2, 1 <= c.left.len())?;
        Ok((c.left[0], skip(1, c)))
    })
}

pub fn big_endian(s: &[u8]) -> u32 {
    ((s[0] as u32 * 256 + s[1] as u32) * 256 + s[2] as u32) * 256 + s[3] as u32
}

pub fn word(c: At) -> Out<(u32, At)> {
    field(c, |c| {
        guard(2, 4 <= c.left.len())?;
        Ok((big_endian(c.left), skip(4, c)))
    })
}

pub fn run(c: At) -> Out<(Run, At)> {
    field(c, |c| {
        let (n, c1) = word(c)?;
        let n = n as usize;
        guard(2, n <= c1.left.len())?;
        Ok((Run { place: Place { start: c1.at, len: n }, bytes: &c1.left[..n] }, skip(n, c1)))
    })
}

pub fn string(c: At) -> Out<(Run, At)> {
    field(c, |c| {
        let (t, c1) = run(c)?;
        guard(3, utf8(t.bytes))?;
        Ok((t, c1))
    })
}

/// 5 is at the first byte that is too much
pub fn end(c: At) -> Out<()> {
    guard_at(5, c.at, c.left.is_empty())
}

/// The names of a list: cut at each comma; one comma at the very end ends the last name and starts none (C3).
pub fn cut(s: &[u8]) -> Vec<Name<'_>> {
    let mut names: Vec<Name> = s.split(|&c| c == 44).collect();
    if names.last().is_some_and(|last| last.is_empty()) {
        names.pop();
    }
    names
}

/// names joined by commas
pub fn join(names: &[Name]) -> Vec<u8> {
    names.join(&44)
}

const MOST_BYTES: usize = 16384;
const MOST_BEFORE: usize = 1024;

/// a name that may stand in a list: not empty (C2), and US-ASCII (C4)
fn standing(s: Name) -> bool {
    !s.is_empty() && ascii(s)
}

/// name by name from the left: 3 for a name that may not stand, before the count's 2 (C7)
fn judged(names: &[Name]) -> Out<()> {
    for (n, name) in names.iter().enumerate() {
        guard(3, standing(name))?;
        guard(2, n <= MOST_BEFORE)?;
    }
    Ok(())
}

fn judged_list(s: &[u8]) -> Out<()> {
    guard(3, utf8(s))?;
    judged(&cut(s))
}

/// a name-list: the string, then its length, then its bytes (C7); one field, whichever of its names offends
pub fn name_list(c: At) -> Out<(Run, At)> {
    field(c, |c| {
        let (t, c1) = run(c)?;
        guard(2, t.bytes.len() <= MOST_BYTES)?;
        judged_list(t.bytes)?;
        Ok((t, c1))
    })
}

/// "a string's place lies outside the slice lent" is 2
pub fn shown(s: &[u8], p: Place) -> Out<&[u8]> {
    guard(2, p.start as u128 + p.len as u128 <= s.len() as u128)?;
    Ok(&s[p.start..p.start + p.len])
}
