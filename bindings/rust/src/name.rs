use crate::kind::{Certificate, Cipher, Compression, Kex, Key, Kind, Mac};
use crate::part::{front, show_text};
use crate::refusal::Refusal;
use crate::{call, ffi};
use std::error::Error;
use std::fmt;
use std::marker::PhantomData;
use std::str::FromStr;
use std::sync::OnceLock;

/// A name of one kind: its number, which counts in the kind's table, and its spelling, which is the library's.
///
/// `"curve25519-sha256".parse::<KexName>()` finds one; the names that there are stand as constants too. Names of two kinds
/// cannot be mixed:
///
/// ```compile_fail
/// let mac: harupesat::MacName = harupesat::CipherName::NONE;
/// ```
#[derive(Clone, Copy, PartialEq, Eq, Hash)]
pub struct Name<K> {
    number: u8,
    kind: PhantomData<K>,
}

/// A kex or extension name.
pub type KexName = Name<Kex>;
/// A host key's name.
pub type KeyName = Name<Key>;
/// A host certificate's name.
pub type CertificateName = Name<Certificate>;
/// A cipher's name.
pub type CipherName = Name<Cipher>;
/// A MAC's name.
pub type MacName = Name<Mac>;
/// A compression's name.
pub type CompressionName = Name<Compression>;

/// The kind has no such name.
#[derive(Clone, Copy, Debug, PartialEq, Eq, Hash)]
pub struct UnknownName;

impl<K> Name<K> {
    pub(crate) const fn numbered(number: u8) -> Name<K> {
        Name { number, kind: PhantomData }
    }

    /// Its place in the kind's table, from 0.
    pub fn number(self) -> u8 {
        self.number
    }
}

impl<K: Kind> Name<K> {
    /// The name with this number.
    ///
    /// # Errors
    /// [`Refusal::BadTable`] where the kind's table has none.
    pub fn from_number(number: u8) -> Result<Name<K>, Refusal> {
        if usize::from(number) < spellings(K::NUMBER).len() { Ok(Name::numbered(number)) } else { Err(Refusal::BadTable) }
    }

    /// As it stands in a name-list.
    pub fn spelling(self) -> &'static str {
        &spellings(K::NUMBER)[usize::from(self.number)]
    }

    /// Every name of the kind, in the order of their numbers.
    pub fn all() -> impl Iterator<Item = Name<K>> {
        (0..).take(spellings(K::NUMBER).len()).map(Name::numbered)
    }

    /// The kind's default list, best first: russh's. The certificates' is empty.
    pub fn defaults() -> Vec<Name<K>> {
        let mut numbers = [0; 16];
        let written = call::default_list(K::NUMBER, &mut numbers).expect("16 bytes are always enough");
        let list = front(&numbers, written.len).expect("what is written stands in the output");
        list.iter().copied().map(Name::numbered).collect()
    }
}

/// The spellings of a kind, by number: the library is asked once.
fn spellings(kind: u8) -> &'static [String] {
    static KINDS: [OnceLock<Vec<String>>; 6] = [const { OnceLock::new() }; 6];
    KINDS[usize::from(kind)].get_or_init(|| (0..=u8::MAX).map_while(|number| spelled(kind, number)).collect())
}

fn spelled(kind: u8, number: u8) -> Option<String> {
    let mut name = [0; 64];
    match call::spelling(kind, number, &mut name) {
        Ok(written) => Some(show_text(&name, 0, written.len).expect("names are ASCII").to_owned()),
        Err(Refusal::BadTable) => None,
        Err(refusal) => panic!("64 bytes are always enough for a name: {refusal}"),
    }
}

impl<K: Kind> FromStr for Name<K> {
    type Err = UnknownName;

    fn from_str(name: &str) -> Result<Name<K>, UnknownName> {
        let found = call::lookup(K::NUMBER, name.as_bytes()).expect("the kind is one of six");
        if found.what == ffi::UNKNOWN { Err(UnknownName) } else { Ok(Name::numbered(found.value)) }
    }
}

impl<K: Kind> fmt::Display for Name<K> {
    fn fmt(&self, f: &mut fmt::Formatter<'_>) -> fmt::Result {
        f.pad(self.spelling())
    }
}

impl<K: Kind> fmt::Debug for Name<K> {
    fn fmt(&self, f: &mut fmt::Formatter<'_>) -> fmt::Result {
        f.debug_tuple(K::TYPE).field(&self.spelling()).finish()
    }
}

impl fmt::Display for UnknownName {
    fn fmt(&self, f: &mut fmt::Formatter<'_>) -> fmt::Result {
        f.write_str("no such name")
    }
}

impl Error for UnknownName {}

impl KeyName {
    /// The name of this key's certificate.
    pub fn certificate(self) -> CertificateName {
        Name::numbered(self.number)
    }
}

impl CertificateName {
    /// The name of the plain key.
    pub fn key(self) -> KeyName {
        Name::numbered(self.number)
    }
}

impl CipherName {
    /// Whether it needs a MAC beside it: the ctr and cbc ciphers do.
    pub fn needs_mac(self) -> bool {
        call::needs_mac(self.number).expect("the number is a cipher's").value != 0
    }

    /// Whether it protects integrity by itself: the gcm ciphers and chacha20 do.
    pub fn built_in_integrity(self) -> bool {
        call::built_in_integrity(self.number).expect("the number is a cipher's").value != 0
    }
}
