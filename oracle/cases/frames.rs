//! Clear packets: short ones exhaustively, the limits from both sides, random ones.

use crate::Case;
use crate::rng::Rng;
use plain::Counters;

const ZERO: Counters = Counters { seqn: 0, bytes: 0 };

/// Every length up to `most`, every padding byte, and every slice from nothing to two bytes past the packet.
pub fn short(most: usize) -> impl Iterator<Item = Case> {
    (0..=most).flat_map(|len| {
        (0..=255u8).flat_map(move |padding| {
            (0..=len + 6).filter(move |&given| given > 4 || padding == 0).map(move |given| {
                let mut bytes = (len as u32).to_be_bytes().to_vec();
                bytes.push(padding);
                bytes.extend((0..len + 1).map(|i| 0xA0 ^ i as u8));
                bytes.truncate(given);
                Case::FrameRead { bytes, counters: ZERO }
            })
        })
    })
}

/// lengths around 262,177 and the edges of a uint32, with slices around what they announce
pub fn limits() -> Vec<Case> {
    let mut cases = Vec::new();
    for len in 262173..=262178usize {
        for given in [0, 3, 4, 5, len + 3, len + 4, len + 5] {
            for padding in [0, 4, 255] {
                let mut bytes = (len as u32).to_be_bytes().to_vec();
                bytes.push(padding);
                bytes.resize(given.max(5), 0x5A);
                bytes.truncate(given);
                cases.push(Case::FrameRead { bytes, counters: ZERO });
            }
        }
    }
    for len in [0x7FFF_FFFFu32, 0x8000_0000, 0xFFFF_FFFF, 0x0100_0000, 0x0010_0000] {
        cases.push(Case::FrameRead { bytes: [&len.to_be_bytes()[..], &[4; 40]].concat(), counters: ZERO });
    }
    for n in 262160..=262167usize {
        cases.push(Case::FrameWrite { payload: vec![0x5A; n], counters: ZERO });
    }
    cases
}

pub fn counters(r: &mut Rng) -> Counters {
    Counters {
        seqn: *r.of(&[0, 1, 2, 0x7FFF_FFFF, 0xFFFF_FFFE, 0xFFFF_FFFF, 0x1234_5678]),
        bytes: if r.once_in(2) { r.word() >> 8 } else { r.below(1000) as u64 },
    }
}

/// a packet with random padding and slice; the reader's byte count saturates, so it may start anywhere
pub fn read(r: &mut Rng) -> Case {
    let len = match r.below(8) {
        0 => r.below(6),
        1 => r.below(3000),
        _ => r.below(300),
    };
    let mut bytes = (len as u32).to_be_bytes().to_vec();
    bytes.extend(r.bytes(len));
    if len > 0 {
        match r.below(6) {
            0 => bytes[4] = (len as u8).wrapping_add(r.below(5) as u8).wrapping_sub(2),
            1 => bytes[4] = r.byte(),
            _ => bytes[4] = r.below(len.min(255) + 1) as u8,
        }
    }
    match r.below(5) {
        0 => {
            let keep = r.below(bytes.len() + 1);
            bytes.truncate(keep);
        }
        1 => {
            let n = r.below(20);
            let more = r.bytes(n);
            bytes.extend(more);
        }
        2 => bytes = r.damaged(&bytes),
        _ => {}
    }
    let mut counters = counters(r);
    if r.once_in(6) {
        counters.bytes = u64::MAX - r.below(200) as u64;
    }
    Case::FrameRead { bytes, counters }
}

pub fn write(r: &mut Rng) -> Case {
    let payload = match r.below(200) {
        0 => vec![r.byte(); r.below(262168)],
        _ => {
            let n = r.below(600);
            r.bytes(n)
        }
    };
    Case::FrameWrite { payload, counters: counters(r) }
}
