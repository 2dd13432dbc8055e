//! stand-in, not the oracle: the crate tokio: reading and writing that is always ready.

pub mod io {
    use std::io::{Error, ErrorKind, Result};

    pub trait AsyncRead {
        /// fills what it can of `out`; 0 is the end
        fn fill(&mut self, out: &mut [u8]) -> Result<usize>;
    }

    #[allow(async_fn_in_trait)]
    pub trait AsyncReadExt: AsyncRead {
        async fn read_exact(&mut self, out: &mut [u8]) -> Result<usize> {
            let mut done = 0;
            while done < out.len() {
                match self.fill(&mut out[done..])? {
                    0 => return Err(Error::from(ErrorKind::UnexpectedEof)),
                    n => done += n,
                }
            }
            Ok(done)
        }
    }

    impl<R: AsyncRead> AsyncReadExt for R {}

    pub trait AsyncWrite {
        fn put(&mut self, bytes: &[u8]) -> Result<()>;
    }

    #[allow(async_fn_in_trait)]
    pub trait AsyncWriteExt: AsyncWrite {
        async fn write_all(&mut self, bytes: &[u8]) -> Result<()> {
            self.put(bytes)
        }

        async fn flush(&mut self) -> Result<()> {
            Ok(())
        }
    }

    impl<W: AsyncWrite> AsyncWriteExt for W {}
}
