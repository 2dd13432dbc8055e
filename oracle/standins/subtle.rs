//! stand-in, not the oracle: the crate subtle, types only.

pub struct Choice(bool);

impl From<Choice> for bool {
    fn from(c: Choice) -> bool {
        c.0
    }
}

pub trait ConstantTimeEq {
    fn ct_eq(&self, other: &Self) -> Choice;
}

impl ConstantTimeEq for [u8] {
    fn ct_eq(&self, other: &[u8]) -> Choice {
        Choice(self == other)
    }
}
