//! stand-in, not the oracle: russh's cipher/chacha20poly1305.rs. It leaves `needs_mac` at the trait's false, as document 01 says.

use super::{OpeningKey, SealingKey};
use crate::mac::MacAlgorithm;

pub struct SshChacha20Poly1305Cipher {}

impl super::Cipher for SshChacha20Poly1305Cipher {
    fn key_len(&self) -> usize {
        unreachable!("types only")
    }

    fn make_opening_key(&self, _: &[u8], _: &[u8], _: &[u8], _: &dyn MacAlgorithm) -> Box<dyn OpeningKey + Send> {
        unreachable!("types only")
    }

    fn make_sealing_key(&self, _: &[u8], _: &[u8], _: &[u8], _: &dyn MacAlgorithm) -> Box<dyn SealingKey + Send> {
        unreachable!("types only")
    }
}
