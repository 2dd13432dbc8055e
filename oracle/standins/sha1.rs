//! stand-in, not the oracle: the crate sha1, types only.

pub struct Sha1;

impl digest::OutputSizeUser for Sha1 {
    type OutputSize = digest::typenum::U20;
}
