use std::error::Error;
use std::fmt;

/// Why something was refused. A refusal has changed no byte of a lent output, and counts nothing.
///
/// By itself it is the refusal of what writes, and of what asks for a name: these have no offset. What reads refuses with a
/// [`ReadRefusal`], which has this and the offset.
///
/// The numbers are those of include/harupesat.h; later versions of the library have more.
#[derive(Clone, Copy, Debug, PartialEq, Eq, Hash)]
#[non_exhaustive]
#[repr(u8)]
pub enum Refusal {
    /// A KEXINIT payload over 262,176 bytes, a channel body over 262,175, a failure text over 1,024.
    TooLong = 1,
    /// A field runs past the end; a name-list is over 16,384 bytes or 1,025 names; a place lies outside the slice lent.
    PastEnd = 2,
    /// A string is not UTF-8; a name in a list is empty or not ASCII.
    NotUtf8 = 3,
    /// A packet length over 262,177, read or to be written.
    PacketSize = 4,
    /// Bytes are left after the last field.
    Trailing = 5,
    /// A KEXINIT under 17 bytes; maximum packet size 0.
    Inconsistent = 6,
    /// The padding is longer than its packet.
    Padding = 7,
    /// The lent output is shorter than what is to be written.
    NoRoom = 8,
    /// A local table is out of range: a number outside its table, a list over 16 entries or a row table over 8, two rows of
    /// equal identity but different kind, a client with rows.
    BadTable = 9,
    /// No shared kex name.
    NoKex = 10,
    /// No shared key name.
    NoKey = 11,
    /// No shared cipher.
    NoCipher = 12,
    /// No shared MAC, or `none` under a cipher that needs one.
    NoMac = 13,
    /// No shared compression.
    NoCompression = 14,
}

use Refusal::*;

const ALL: [Refusal; 14] = [
    TooLong,
    PastEnd,
    NotUtf8,
    PacketSize,
    Trailing,
    Inconsistent,
    Padding,
    NoRoom,
    BadTable,
    NoKex,
    NoKey,
    NoCipher,
    NoMac,
    NoCompression,
];

impl Refusal {
    /// The number that the header and the documents know it by.
    pub fn number(self) -> u8 {
        self as u8
    }

    /// This refusal of something read, at this offset.
    pub const fn at(self, offset: usize) -> ReadRefusal {
        ReadRefusal { refusal: self, offset }
    }

    /// The refusal with this number, if there is one.
    pub fn from_number(number: u8) -> Option<Refusal> {
        ALL.into_iter().find(|refusal| refusal.number() == number)
    }

    fn meaning(self) -> &'static str {
        match self {
            TooLong => "longer than it may be",
            PastEnd => "a field runs past the end",
            NotUtf8 => "a string is not UTF-8, or a name in a list is empty or not ASCII",
            PacketSize => "packet length over 262,177",
            Trailing => "bytes are left after the last field",
            Inconsistent => "KEXINIT under 17 bytes, or maximum packet size 0",
            Padding => "padding longer than the packet",
            NoRoom => "the lent output is too short",
            BadTable => "a local table is out of range",
            NoKex => "no shared kex name",
            NoKey => "no shared key name",
            NoCipher => "no shared cipher",
            NoMac => "no shared MAC",
            NoCompression => "no shared compression",
        }
    }
}

/// Its number, and what it means: `refused with 8: the lent output is too short`.
impl fmt::Display for Refusal {
    fn fmt(&self, f: &mut fmt::Formatter<'_>) -> fmt::Result {
        write!(f, "refused with {}: {}", self.number(), self.meaning())
    }
}

impl Error for Refusal {}

/// Why something that was read was refused, and where.
///
/// ```
/// let cut_short = harupesat::read_confirmation(&[1; 15]).unwrap_err();
/// assert_eq!((cut_short.number(), cut_short.offset), (2, 12));
/// assert_eq!(cut_short.to_string(), "refused with 2 at byte 12: a field runs past the end");
/// ```
#[derive(Clone, Copy, Debug, PartialEq, Eq, Hash)]
pub struct ReadRefusal {
    /// Why.
    pub refusal: Refusal,
    /// Where, counted from the first byte of the payload or body that was lent, of a packet from the packet's:
    ///
    /// - [`PastEnd`], [`NotUtf8`]: the first byte of the field, which is its length's; of a name-list too, whichever name
    ///   offends. It may be one past the last byte: the field that is missing. Of a place outside the slice lent: 0
    /// - [`Trailing`]: the first byte left over
    /// - [`Inconsistent`]: the maximum packet size's field; 0 for a short KEXINIT
    /// - [`Padding`]: 4, the padding's byte
    /// - [`NoKex`], [`NoKey`], [`NoCipher`], [`NoMac`], [`NoCompression`]: the length of the peer's list; of the last two
    ///   the list of the direction that failed
    /// - all others: 0
    pub offset: usize,
}

impl ReadRefusal {
    /// The number that the header and the documents know it by.
    pub fn number(self) -> u8 {
        self.refusal.number()
    }
}

/// Its number, where, and what it means: `refused with 12 at byte 53: no shared cipher`.
impl fmt::Display for ReadRefusal {
    fn fmt(&self, f: &mut fmt::Formatter<'_>) -> fmt::Result {
        write!(f, "refused with {} at byte {}: {}", self.number(), self.offset, self.refusal.meaning())
    }
}

impl Error for ReadRefusal {}
