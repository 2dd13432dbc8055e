use crate::call;
use crate::kind::Kind;
use crate::name::{CipherName, CompressionName, KexName, KeyName, MacName, Name};
use crate::part::front;
use crate::refusal::{ReadRefusal, Refusal};
use crate::tables::Tables;

/// An output of so many bytes is enough for any KEXINIT.
pub const KEXINIT_ROOM: usize = 4096;

/// What an end settles on. Two ends of this library that read each other's KEXINIT have equal ones.
#[derive(Clone, Copy, Debug, PartialEq, Eq, Hash)]
pub struct Names {
    /// The key exchange.
    pub kex: KexName,
    /// The host key: the plain key's name, also where a certificate's was chosen.
    pub key: KeyName,
    /// The cipher, both ways.
    pub cipher: CipherName,
    /// The MAC from client to server.
    pub client_mac: MacName,
    /// The MAC from server to client.
    pub server_mac: MacName,
    /// The compression from client to server.
    pub client_compression: CompressionName,
    /// The compression from server to client.
    pub server_compression: CompressionName,
    /// A certificate's name was chosen.
    pub host_key_is_certificate: bool,
    /// The peer's guessed packet is to be dropped.
    pub ignore_guessed: bool,
    /// Strict key exchange is in force. The caller keeps to its rules: in the first exchange a message that is not due ends
    /// the connection, and after each NEWKEYS that direction's sequence number is 0.
    pub strict_kex: bool,
}

impl Names {
    /// The host key's name as it stood in the lists: the certificate's where one was chosen.
    pub fn host_key(&self) -> &'static str {
        if self.host_key_is_certificate { self.key.certificate().spelling() } else { self.key.spelling() }
    }
}

impl Tables {
    /// Writes this side's KEXINIT payload (RFC 4253 section 7.1) to the front of `out`, and hands that part back. The
    /// cookie is to be random. [`KEXINIT_ROOM`] bytes of `out` are always enough; what is not needed keeps its value.
    ///
    /// # Errors
    /// [`Refusal::BadTable`], then [`Refusal::NoRoom`]; `out` then is as it was.
    pub fn write_kex<'a>(&self, cookie: &[u8; 16], out: &'a mut [u8]) -> Result<&'a [u8], Refusal> {
        let written = call::write_kex(self, cookie, out)?;
        front(out, written.len)
    }

    /// What this side settles on when it reads the peer's KEXINIT payload.
    ///
    /// `strict_agreed`: strict key exchange was agreed in the connection's first exchange. In that exchange it is false,
    /// in later ones that exchange's [`strict_kex`](Names::strict_kex); where it is true the answer's is true, whatever
    /// the lists say. A wrong true, and this end starts its sequence numbers anew after NEWKEYS while the peer counts on.
    /// A wrong false in a later exchange, where the peer need not list its strict name again, and the peer starts anew
    /// while this end counts on. Either way the two ends no longer take each other's packets (but under a gcm cipher,
    /// which does not look at the number): the connection is lost.
    ///
    /// # Errors
    /// [`Refusal::BadTable`], [`Refusal::TooLong`], [`Refusal::Inconsistent`]; then, in the order of the fields,
    /// [`Refusal::PastEnd`], [`Refusal::NotUtf8`], [`Refusal::NoKex`], [`Refusal::NoKey`], [`Refusal::NoCipher`],
    /// [`Refusal::NoMac`], [`Refusal::NoCompression`] and [`Refusal::Trailing`].
    pub fn read_kex(&self, strict_agreed: bool, payload: &[u8]) -> Result<Names, ReadRefusal> {
        let names = call::read_kex(self, strict_agreed, payload)?;
        Ok(Names {
            kex: settled(names.kex)?,
            key: settled(names.key)?,
            cipher: settled(names.cipher)?,
            client_mac: settled(names.client_mac)?,
            server_mac: settled(names.server_mac)?,
            client_compression: settled(names.client_compression)?,
            server_compression: settled(names.server_compression)?,
            host_key_is_certificate: names.host_key_is_certificate != 0,
            ignore_guessed: names.ignore_guessed != 0,
            strict_kex: names.strict_kex != 0,
        })
    }
}

/// The name with a number that the library gave. Its table has it; one that it has not would be 9, at offset 0.
fn settled<K: Kind>(number: u8) -> Result<Name<K>, ReadRefusal> {
    Name::from_number(number).map_err(|refusal| refusal.at(0))
}
