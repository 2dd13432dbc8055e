//! The real first packets: the files *.bin of a folder.

use crate::Case;
use plain::{Counters, Read, Side};
use russh::door;
use std::io::{Error, Result};

const ZERO: Counters = Counters { seqn: 0, bytes: 0 };

/// Each file's name and bytes. A folder without any ends the run: it would look like a run with them.
pub fn captures(folder: &str) -> Vec<(String, Vec<u8>)> {
    let files = read(folder).and_then(|f| if f.is_empty() { Err(Error::other("it has no file *.bin")) } else { Ok(f) });
    files.unwrap_or_else(|why| {
        eprintln!("oracle: no real first packets in CAPTURES, '{folder}': {why}");
        std::process::exit(2)
    })
}

fn read(folder: &str) -> Result<Vec<(String, Vec<u8>)>> {
    let mut files = Vec::new();
    for entry in std::fs::read_dir(folder)? {
        let path = entry?.path();
        if path.extension().is_some_and(|e| e == "bin") {
            files.push((path.file_name().unwrap_or_default().to_string_lossy().into_owned(), std::fs::read(&path)?));
        }
    }
    files.sort();
    Ok(files)
}

/// A first packet: the frame, then its payload as either side with the default tables and a key of each kind, with
/// certificates and without.
pub fn captured(bytes: &[u8]) -> Vec<Case> {
    let mut cases = vec![Case::FrameRead { bytes: bytes.to_vec(), counters: ZERO }];
    let Ok(Read::Packet { payload, .. }) = door::frame_read(bytes, ZERO) else {
        return cases;
    };
    let (kinds, ids) = ([0, 1, 2, 3, 4], [10, 11, 12, 13, 14]);
    let mut certified = door::defaults(Side::Client, &[], &[], &[], &[]);
    certified.certificate = (0..7).collect();
    for tables in [
        door::defaults(Side::Client, &[], &[], &[], &[]),
        certified,
        door::defaults(Side::Server, &kinds, &ids, &[], &[]),
        door::defaults(Side::Server, &kinds, &ids, &[4, 0], &[14, 10]),
    ] {
        cases.push(Case::ReadKex { tables, strict_agreed: false, payload: payload.clone() });
    }
    cases
}
