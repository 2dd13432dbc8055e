//! A refused message cut at the offset of its refusal. What stood before was read, so the field that starts there is now
//! missing: 2, at the same offset. Where bytes were left over, the message is whole and accepted.

use crate::Case;
use plain::{Out, Refusal};

pub struct Cut {
    /// how the message was refused
    pub refusal: Refusal,
    /// the message cut
    pub case: Case,
    /// the answer to it, without the values
    pub says: Out<()>,
    /// The field was missing before: nothing is cut off, so the answer can be no other.
    pub nothing: bool,
}

/// The numbers that this holds for, by function: all that a field is refused with. 1, 9, and 6 of a short KEXINIT are of none.
pub const NUMBERS: &[(&str, &[u8])] =
    &[("read_kex", &[2, 3, 5, 10, 11, 12, 13, 14]), ("open", &[2, 3, 5, 6]), ("confirmation", &[2, 6])];

fn bytes(case: &mut Case) -> Option<&mut Vec<u8>> {
    match case {
        Case::ReadKex { payload, .. } => Some(payload),
        Case::Open { body } | Case::Confirmation { body } => Some(body),
        _ => None,
    }
}

/// None for what is no message, and for other numbers.
pub fn cut(case: &Case, refusal: Refusal) -> Option<Cut> {
    let numbers = NUMBERS.iter().find(|(function, _)| *function == case.function())?.1;
    if !numbers.contains(&refusal.number) {
        return None;
    }
    let mut case = case.clone();
    let message = bytes(&mut case)?;
    let (offset, len) = (refusal.offset?, message.len());
    message.truncate(offset);
    let missing = Refusal { number: 2, offset: Some(offset.min(len)) };
    let says = if refusal.number == 5 { Ok(()) } else { Err(missing) };
    Some(Cut { refusal, case, says, nothing: refusal == missing && offset == len })
}
