//! Rows of docs/DIFFERENCES.md, shown by running the text.

use plain::Counters;

use super::{Slice, block_on, buffer};
use crate::cipher::SealingKey;
use crate::keys::key::ALL_KEY_TYPES;
use crate::sshbuffer::PacketWriter;
use crate::{Error, cipher, kex, mac};

/// What the Rust does where docs/DIFFERENCES.md says that we do otherwise: each row shown by running the text.
pub fn differences() -> Vec<(&'static str, bool)> {
    let mut rows = Vec::new();

    let mut wrapping = buffer(Counters { seqn: u32::MAX, bytes: u64::MAX });
    let added = std::panic::catch_unwind(move || {
        cipher::clear::Key.write(&[1], &mut wrapping);
        wrapping.bytes
    });
    rows.push((
        "X1: the writer's byte count is added to plainly, past its largest value",
        added.ok() != Some(usize::MAX),
    ));

    let mut writer = PacketWriter::clear();
    writer.packet_raw(&[]).expect("nothing is refused");
    rows.push(("C10, X2: the packet writer writes nothing for an empty payload", writer.buffer().buffer.is_empty()));

    writer.packet_raw(&[1, 2, 3]).expect("nothing is refused");
    let before = writer.bytes_written();
    writer.set_cipher(Box::new(cipher::clear::Key));
    rows.push(("C9, X3: installing a cipher sets the byte count to 0", before == 3 && writer.bytes_written() == 0));

    let mut refused = buffer(Counters { seqn: 0, bytes: 0 });
    let mut stream = Slice { bytes: &[0, 0, 0, 1, 2], taken: 0, wanted: 0 };
    let answer = block_on(cipher::read(&mut stream, &mut refused, &mut cipher::clear::Key));
    rows.push((
        "C11, X4: after 7 the announced length stays set",
        matches!(answer, Err(Error::IndexOutOfBounds)) && refused.len == 1,
    ));

    let unknown = ["ext-info-c", "ext-info-s", "kex-strict-c-v00@openssh.com", "kex-strict-s-v00@openssh.com"];
    rows.push((
        "C1: no extension name is one that kex::Name::try_from knows",
        unknown.iter().all(|n| kex::Name::try_from(*n).is_err()),
    ));

    let known = ["diffie-hellman-group14-sha1", "ecdh-sha2-nistp256", "none"];
    rows.push((
        "X8: the Rust knows kex names that are unknown here",
        known.iter().all(|n| kex::Name::try_from(*n).is_ok()),
    ));

    let known = ["hmac-sha1", "hmac-sha1-etm@openssh.com"];
    rows.push((
        "X8: the Rust knows MAC names that are unknown here",
        known.iter().all(|n| mac::Name::try_from(*n).is_ok()),
    ));

    let known = ["ssh-dss", "sk-ecdsa-sha2-nistp256@openssh.com", "sk-ssh-ed25519@openssh.com"];
    rows.push((
        "X8: the Rust has key types that are unknown here (the stand-in spells them)",
        known.iter().all(|n| ALL_KEY_TYPES.iter().any(|a| a.as_ref() == *n)),
    ));
    rows
}
