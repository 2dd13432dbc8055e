//! stand-in, not the oracle: the crate ssh_encoding, from RFC 4251 section 5 alone.
//! It decides answers (u32 and string decoding), so what it decides is never called compared with the Rust.

#[derive(Debug, Clone, PartialEq, Eq)]
pub enum Error {
    Length,
    Overflow,
    CharacterEncoding,
    TrailingData { remaining: usize },
}

pub type Result<T> = core::result::Result<T, Error>;

pub trait Reader: Sized {
    fn read<'o>(&mut self, out: &'o mut [u8]) -> Result<&'o [u8]>;

    fn remaining_len(&self) -> usize;

    fn is_finished(&self) -> bool {
        self.remaining_len() == 0
    }

    /// string: a uint32 and as many bytes, read by `f`
    fn read_prefixed<'r, T, E, F>(&'r mut self, f: F) -> core::result::Result<T, E>
    where
        E: From<Error>,
        F: FnOnce(&mut NestedReader<'r, Self>) -> core::result::Result<T, E>,
    {
        let left = u32::decode(self)? as usize;
        if left > self.remaining_len() {
            return Err(Error::Length.into());
        }
        f(&mut NestedReader { inner: self, left })
    }
}

impl Reader for &[u8] {
    fn read<'o>(&mut self, out: &'o mut [u8]) -> Result<&'o [u8]> {
        let (head, rest) = self.split_at_checked(out.len()).ok_or(Error::Length)?;
        out.copy_from_slice(head);
        *self = rest;
        Ok(out)
    }

    fn remaining_len(&self) -> usize {
        self.len()
    }
}

pub struct NestedReader<'r, R> {
    inner: &'r mut R,
    left: usize,
}

/// src/helpers.rs calls these without the trait in scope
impl<R: Reader> NestedReader<'_, R> {
    pub fn read<'o>(&mut self, out: &'o mut [u8]) -> Result<&'o [u8]> {
        self.left = self.left.checked_sub(out.len()).ok_or(Error::Length)?;
        self.inner.read(out)
    }

    pub fn remaining_len(&self) -> usize {
        self.left
    }

    pub fn ensure_finished(&self) -> Result<()> {
        match self.left {
            0 => Ok(()),
            remaining => Err(Error::TrailingData { remaining }),
        }
    }
}

pub trait Decode: Sized {
    type Error: From<Error>;

    fn decode(reader: &mut impl Reader) -> core::result::Result<Self, Self::Error>;
}

impl Decode for u8 {
    type Error = Error;

    fn decode(reader: &mut impl Reader) -> Result<Self> {
        let mut byte = [0];
        reader.read(&mut byte)?;
        Ok(byte[0])
    }
}

impl Decode for u32 {
    type Error = Error;

    fn decode(reader: &mut impl Reader) -> Result<Self> {
        let mut bytes = [0; 4];
        reader.read(&mut bytes)?;
        Ok(u32::from_be_bytes(bytes))
    }
}

impl Decode for String {
    type Error = Error;

    fn decode(reader: &mut impl Reader) -> Result<Self> {
        reader.read_prefixed(|r| {
            let mut bytes = vec![0; r.remaining_len()];
            r.read(&mut bytes)?;
            String::from_utf8(bytes).map_err(|_| Error::CharacterEncoding)
        })
    }
}

pub trait Writer: Sized {
    fn write(&mut self, bytes: &[u8]) -> Result<()>;
}

impl Writer for Vec<u8> {
    fn write(&mut self, bytes: &[u8]) -> Result<()> {
        self.extend_from_slice(bytes);
        Ok(())
    }
}

pub trait Encode {
    fn encoded_len(&self) -> Result<usize>;

    fn encode(&self, writer: &mut impl Writer) -> Result<()>;
}

impl Encode for u8 {
    fn encoded_len(&self) -> Result<usize> {
        Ok(1)
    }

    fn encode(&self, writer: &mut impl Writer) -> Result<()> {
        writer.write(&[*self])
    }
}

impl Encode for u32 {
    fn encoded_len(&self) -> Result<usize> {
        Ok(4)
    }

    fn encode(&self, writer: &mut impl Writer) -> Result<()> {
        writer.write(&self.to_be_bytes())
    }
}

impl Encode for [u8] {
    fn encoded_len(&self) -> Result<usize> {
        Ok(4 + self.len())
    }

    fn encode(&self, writer: &mut impl Writer) -> Result<()> {
        u32::try_from(self.len()).map_err(|_| Error::Length)?.encode(writer)?;
        writer.write(self)
    }
}

impl Encode for str {
    fn encoded_len(&self) -> Result<usize> {
        self.as_bytes().encoded_len()
    }

    fn encode(&self, writer: &mut impl Writer) -> Result<()> {
        self.as_bytes().encode(writer)
    }
}

impl Encode for String {
    fn encoded_len(&self) -> Result<usize> {
        self.as_str().encoded_len()
    }

    fn encode(&self, writer: &mut impl Writer) -> Result<()> {
        self.as_str().encode(writer)
    }
}

/// KEXINIT's language lists: russh writes the empty one and no other
impl Encode for Vec<String> {
    fn encoded_len(&self) -> Result<usize> {
        Ok(4)
    }

    fn encode(&self, writer: &mut impl Writer) -> Result<()> {
        assert!(self.is_empty());
        0u32.encode(writer)
    }
}
