//! SplitMix64 (Steele, Lea, Flood 2014): the same numbers for a seed on every machine.

pub struct Rng(u64);

impl Rng {
    pub fn new(seed: u64) -> Self {
        Rng(seed)
    }

    pub fn word(&mut self) -> u64 {
        self.0 = self.0.wrapping_add(0x9E37_79B9_7F4A_7C15);
        let mut z = self.0;
        z = (z ^ (z >> 30)).wrapping_mul(0xBF58_476D_1CE4_E5B9);
        z = (z ^ (z >> 27)).wrapping_mul(0x94D0_49BB_1331_11EB);
        z ^ (z >> 31)
    }

    /// below n
    pub fn below(&mut self, n: usize) -> usize {
        (self.word() % n as u64) as usize
    }

    pub fn byte(&mut self) -> u8 {
        self.word() as u8
    }

    /// once in n
    pub fn once_in(&mut self, n: usize) -> bool {
        self.below(n) == 0
    }

    pub fn of<'a, T>(&mut self, list: &'a [T]) -> &'a T {
        &list[self.below(list.len())]
    }

    pub fn bytes(&mut self, n: usize) -> Vec<u8> {
        (0..n).map(|_| self.byte()).collect()
    }

    /// u32 values: small, at an edge, or any
    pub fn number(&mut self) -> u32 {
        match self.below(4) {
            0 => self.below(5) as u32,
            1 => *self.of(&[255, 256, 65535, 65536, 0x7FFF_FFFF, 0x8000_0000, 0xFFFF_FFFE, 0xFFFF_FFFF, 1 << 20]),
            _ => self.word() as u32,
        }
    }

    /// a copy with some bytes changed, cut, added, taken out or a length set off
    pub fn damaged(&mut self, bytes: &[u8]) -> Vec<u8> {
        let mut b = bytes.to_vec();
        for _ in 0..1 + self.below(2) {
            let at = self.below(b.len() + 1);
            match self.below(7) {
                0 => b.truncate(at),
                1 => {
                    let n = 1 + self.below(6);
                    let more = self.bytes(n);
                    b.extend(more);
                }
                2 => {
                    let byte = self.byte();
                    b.insert(at, byte);
                }
                3 if at < b.len() => {
                    b.remove(at);
                }
                4 if at < b.len() => b[at] ^= 1 << self.below(8),
                5 if at < b.len() => b[at] = *self.of(&[0, 1, 0x2C, 0x7F, 0x80, 0xBF, 0xC0, 0xC3, 0xED, 0xF4, 0xFF]),
                _ if at + 4 <= b.len() => {
                    let n = self.number();
                    b[at..at + 4].copy_from_slice(&n.to_be_bytes());
                }
                _ => {}
            }
        }
        b
    }
}
