//! crates/text/specs: Utf8 (the ABNF of RFC 3629 section 4), Same

type Range = (u8, u8);

const TAIL: Range = (0x80, 0xBF);

/// UTF8-char, its alternatives in the RFC's order
pub const ROWS: &[&[Range]] = &[
    &[(0x00, 0x7F)],
    &[(0xC2, 0xDF), TAIL],
    &[(0xE0, 0xE0), (0xA0, 0xBF), TAIL],
    &[(0xE1, 0xEC), TAIL, TAIL],
    &[(0xED, 0xED), (0x80, 0x9F), TAIL],
    &[(0xEE, 0xEF), TAIL, TAIL],
    &[(0xF0, 0xF0), (0x90, 0xBF), TAIL, TAIL],
    &[(0xF1, 0xF3), TAIL, TAIL, TAIL],
    &[(0xF4, 0xF4), (0x80, 0x8F), TAIL, TAIL],
];

/// What may still come of a character: these ranges, or (none) it was no character.
type Wanted = Option<&'static [Range]>;

fn within(r: Range, b: u8) -> bool {
    r.0 <= b && b <= r.1
}

/// the rest of the row that a character's first byte opens
fn opened(b: u8) -> Wanted {
    ROWS.iter().find(|row| within(row[0], b)).map(|row| &row[1..])
}

/// one byte on
fn next(w: Wanted, b: u8) -> Wanted {
    match w {
        None => None,
        Some([]) => opened(b),
        Some([r, row @ ..]) => within(*r, b).then_some(row),
    }
}

pub fn utf8(s: &[u8]) -> bool {
    s.iter().fold(Some(&[][..]), |w, &b| next(w, b)).is_some_and(|row| row.is_empty())
}

/// US-ASCII: no byte over 127
pub fn ascii(s: &[u8]) -> bool {
    s.iter().all(|&b| b < 128)
}
