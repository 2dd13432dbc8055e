//! stand-in, not the oracle: the crate byteorder, for uint32.

pub enum BigEndian {}

pub trait ByteOrder {
    fn read_u32(bytes: &[u8]) -> u32;
    fn write_u32(out: &mut [u8], n: u32);
}

impl ByteOrder for BigEndian {
    fn read_u32(bytes: &[u8]) -> u32 {
        u32::from_be_bytes(bytes[..4].try_into().unwrap())
    }

    fn write_u32(out: &mut [u8], n: u32) {
        out[..4].copy_from_slice(&n.to_be_bytes());
    }
}
