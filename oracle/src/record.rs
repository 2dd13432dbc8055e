//! The oracle's answers, one case per line: the cases made with fixed seeds, so the file is the same byte for byte. Where a
//! refusal stands is the model's, and where the Rust cannot be asked the whole answer.
//!   record OUT N FOLDER-OF-CAPTURES

#[allow(dead_code)] // the comparison asks the model for more
#[path = "compare/modelled.rs"]
mod modelled;

use cases::rng::Rng;
use cases::{Answer, Case, NUMBERS, channels, exhaustive, frames, kex, lines, offsets};
use std::collections::BTreeMap;
use std::io::{BufWriter, Result, Write};

const SEED: u64 = 0x5265_636F_7264_6564;

/// of the short packets: padding up to two more than the length, and 255
fn few(case: &Case) -> bool {
    match case {
        Case::FrameRead { bytes, .. } if bytes.len() > 4 => bytes[4] <= bytes[3] + 2 || bytes[4] == 255,
        _ => true,
    }
}

/// of the packets around the largest: one padding
fn one_padding(case: &Case) -> bool {
    match case {
        Case::FrameRead { bytes, .. } if bytes.len() > 5 => bytes[4] == 4,
        _ => true,
    }
}

/// of the UTF-8 cases: the edges of each row of RFC 3629's grammar, then tails and what is none
fn at_an_edge(case: &Case) -> bool {
    let Case::Open { body } = case else { return true };
    let text = &body[4..4 + body[3] as usize];
    let first = b"\x00\x7F\x80\xBF\xC0\xC1\xC2\xDF\xE0\xE1\xEC\xED\xEE\xEF\xF0\xF1\xF3\xF4\xF5\xF8\xFF";
    let second = b"\x00\x7F\x80\x8F\x90\x9F\xA0\xBF\xC0\xFF";
    first.contains(&text[0]) && second.contains(&text[1]) && text[2..].iter().all(|b| b"\x80\xC0".contains(b))
}

/// every fifth KEXINIT read in a rekey of a strict connection
fn rekeyed((i, case): (usize, Case)) -> Case {
    match case {
        Case::ReadKex { tables, payload, .. } => Case::ReadKex { tables, strict_agreed: i % 5 == 0, payload },
        other => other,
    }
}

/// What the list holds: some of each family that `compare` tries, so that it stays small enough to be kept and replayed.
pub fn families(n: usize, folder: &str) -> Vec<(String, Vec<Case>)> {
    let mut all: Vec<(String, Vec<Case>)> = vec![("document 01's tried bytes".into(), cases::tried())];
    let examples = offsets::examples().iter().filter_map(|e| e.case().cloned()).collect();
    all.push(("document 02's examples of offsets".into(), examples));
    for (file, bytes) in cases::captures(folder) {
        all.push((file, cases::captured(&bytes)));
    }
    let mut add = |what: &str, cases: Vec<Case>| all.push((what.into(), cases));
    let every = |k: usize, cases: Vec<Case>| cases.into_iter().step_by(k).collect::<Vec<Case>>();
    add("short packets", frames::short(9).filter(few).collect());
    add("packets at their limits", frames::limits().into_iter().filter(one_padding).collect());
    add("KEXINITs at their limits", every(7, exhaustive::limits()));
    add("small choices", every(97, exhaustive::small_choices()).into_iter().enumerate().map(rekeyed).collect());
    add("small lists", every(151, exhaustive::small_lists()));
    add("channel bodies at their limits", every(3, channels::limits()));
    add("UTF-8", channels::utf8().filter(at_an_edge).collect());
    let mut r = Rng::new(SEED + 1);
    let pairs = (0..n.div_ceil(6)).flat_map(|_| kex::pair(&mut r)).collect();
    add("pairs written by the Rust, read, and read damaged", pairs);
    for (family, what, make, n) in [
        (2, "KEXINITs put together by hand", kex::by_hand as fn(&mut Rng) -> Case, n),
        (3, "packets read", frames::read, n),
        (4, "packets written", frames::write, n / 4),
        (5, "opening bodies", channels::open, 2 * n),
        (6, "confirmation bodies", channels::confirmation, n),
        (7, "failures", channels::fail, n / 2),
    ] {
        let mut r = Rng::new(SEED + family);
        add(what, (0..n).map(|_| make(&mut r)).collect());
    }
    all
}

/// The Rust's answer; of a refusal, with the model's offset.
fn answered(case: &Case) -> Answer {
    let (answer, model) = (case.oracle(), modelled::case(case));
    assert!(answer.given_by(&model), "the oracle and the model differ on {}", lines::case(case));
    if answer.refusal().is_some() { model } else { answer }
}

const HEADER: &str = "\
# The offset of a reader's refusal, its second number, is the model's (oracle/model): the Rust has none";

/// What the Rust cannot be asked: each example's function, line and answer, which is the document's and the model's.
fn beyond() -> impl Iterator<Item = (&'static str, String, Answer)> {
    offsets::examples().into_iter().filter(|e| e.case().is_none()).map(|e| {
        let answer = modelled::beyond(&e.asked);
        assert_eq!(answer.refusal(), Some(e.says), "the example and the model differ on {}", e.asked.line());
        (e.asked.function(), e.asked.line(), answer)
    })
}

fn main() -> Result<()> {
    let args: Vec<String> = std::env::args().skip(1).collect();
    let [file, n, folder] = &args[..] else { panic!("record OUT N FOLDER") };
    let n: usize = n.parse().expect("N is a number");
    // before the file is made anew: without the first packets it stays as it was
    let families = families(n, folder);
    let mut out = BufWriter::new(std::fs::File::create(file)?);
    let mut counts: BTreeMap<&str, BTreeMap<String, u64>> = BTreeMap::new();
    let mut record = |out: &mut BufWriter<_>, function, line: String, answer: Answer| {
        *counts.entry(function).or_default().entry(answer.sort()).or_default() += 1;
        writeln!(out, "{line} = {}", lines::answer(&answer))
    };
    writeln!(out, "# Answers of russh 0.65.0, made by oracle/record.sh (oracle/README.md); seed {SEED:#x}, N {n}")?;
    writeln!(out, "{HEADER}")?;
    for (what, cases) in families {
        writeln!(out, "# {what}")?;
        for case in cases {
            record(&mut out, case.function(), lines::case(&case), answered(&case))?;
        }
    }
    writeln!(out, "# document 02's examples that the Rust cannot be asked: the whole answer is the model's")?;
    for (function, line, answer) in beyond() {
        record(&mut out, function, line, answer)?;
    }
    out.flush()?;

    println!("seed {SEED:#x} and the family's number, N {n}");
    for (function, answers) in &counts {
        let each: Vec<String> = answers.iter().map(|(a, n)| format!("{a}: {n}")).collect();
        println!("  {function}: {}", each.join(", "));
    }
    let mut missing = false;
    for (function, numbers) in NUMBERS {
        for number in *numbers {
            if !counts.get(function).is_some_and(|m| m.contains_key(&number.to_string())) {
                println!("{function} never gave {number}");
                missing = true;
            }
        }
    }
    println!("{} cases, {} bytes", counts.values().flat_map(|m| m.values()).sum::<u64>(), std::fs::metadata(file)?.len());
    std::process::exit(missing as i32);
}
