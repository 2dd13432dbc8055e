//! The seed of what is random: SEED in the environment, decimal or 0x and hexadecimal; `random`, one of the system's; where
//! none is given, always the same.

use cases::rng::Rng;
use std::fmt;
use std::fs::File;
use std::io::Read;

const FIXED: u64 = 0x4861_7275_7065_7361;

#[derive(Clone, Copy)]
pub struct Seed(u64);

impl Seed {
    pub fn given() -> Seed {
        match &std::env::var("SEED").unwrap_or_default()[..] {
            "" => Seed(FIXED),
            "random" => Seed(random()),
            text => Seed(number(text).unwrap_or_else(|| {
                eprintln!("oracle: SEED is a number of 64 bits, decimal or 0x and hexadecimal, or `random`: not '{text}'");
                std::process::exit(2)
            })),
        }
    }

    /// what a family's cases are made from
    pub fn of_family(self, family: u64) -> Rng {
        Rng::new(self.0.wrapping_add(family))
    }
}

impl fmt::Display for Seed {
    fn fmt(&self, f: &mut fmt::Formatter) -> fmt::Result {
        write!(f, "{:#x}", self.0)
    }
}

fn number(text: &str) -> Option<u64> {
    match text.strip_prefix("0x") {
        Some(digits) => u64::from_str_radix(digits, 16).ok(),
        None => text.parse().ok(),
    }
}

fn random() -> u64 {
    let mut bytes = [0; 8];
    File::open("/dev/urandom").and_then(|mut f| f.read_exact(&mut bytes)).expect("the system's random numbers");
    u64::from_ne_bytes(bytes)
}
