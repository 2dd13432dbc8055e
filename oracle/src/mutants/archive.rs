//! Where bytes stand in a static library: an archive of ELF files of 64 bits, lowest byte first.

const HEADER: usize = 60;
const PROGBITS: u64 = 1;
const ALLOC: u64 = 2;
const X86_64: u64 = 62;

fn number(bytes: &[u8], at: usize, len: usize) -> u64 {
    bytes[at..at + len].iter().rev().fold(0, |n, b| n << 8 | *b as u64)
}

/// the object files: where each starts, and its bytes
fn objects(archive: &[u8]) -> Vec<(usize, &[u8])> {
    assert!(archive.starts_with(b"!<arch>\n"), "the library is an archive");
    let (mut all, mut at) = (Vec::new(), 8);
    while at + HEADER <= archive.len() {
        let len = str::from_utf8(&archive[at + 48..at + 58]).ok().and_then(|n| n.trim().parse().ok());
        let len: usize = len.expect("a member's length");
        let start = at + HEADER;
        if archive[start..].starts_with(b"\x7FELF\x02\x01") {
            all.push((start, &archive[start..start + len]));
        }
        at = (start + len).next_multiple_of(2);
    }
    all
}

/// where each section stands that a program gets: its code and its constants
fn sections(object: &[u8]) -> Vec<std::ops::Range<usize>> {
    let (table, size, count) = (number(object, 0x28, 8), number(object, 0x3A, 2), number(object, 0x3C, 2));
    let headers = (0..count).map(|n| &object[(table + n * size) as usize..]);
    let linked = headers.filter(|h| number(h, 4, 4) == PROGBITS && number(h, 8, 8) & ALLOC != 0);
    linked.map(|h| (number(h, 0x18, 8) as usize, number(h, 0x20, 8) as usize)).map(|(at, len)| at..at + len).collect()
}

/// Every place in code and constants where these bytes stand.
pub fn places(archive: &[u8], bytes: &[u8]) -> Vec<usize> {
    let mut all = Vec::new();
    for (start, object) in objects(archive) {
        for section in sections(object) {
            let found = object[section.clone()].windows(bytes.len()).enumerate().filter(|(_, w)| *w == bytes);
            all.extend(found.map(|(at, _)| start + section.start + at));
        }
    }
    all
}

pub fn of_x86_64(archive: &[u8]) -> bool {
    objects(archive).iter().all(|(_, object)| number(object, 18, 2) == X86_64)
}
