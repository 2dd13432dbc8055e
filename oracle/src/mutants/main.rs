//! What the comparison would catch: one thing changed at a time, for each of a list.
//!   mutants definitions|text|code|library ORACLE-FOLDER TARGET N CAPTURES FIRST      FIRST: of the list, from 1 on
//! RUSTC: the compiler with its options; RUNNER: what runs its programs; LIBDOOR: our static library (oracle/machine.sh).

mod archive;
mod compared;
mod list;
mod made;
mod trial;

use list::Mutant;
use std::path::{Path, PathBuf};

pub struct Setting {
    pub oracle: PathBuf,
    pub target: PathBuf,
    pub n: String,
    pub captures: String,
}

impl Setting {
    /// where the mutant is made
    pub fn work(&self) -> PathBuf {
        self.target.join("mutant")
    }
}

fn main() {
    let args: Vec<String> = std::env::args().skip(1).collect();
    let [kind, oracle, target, n, captures, first] = &args[..] else {
        panic!("mutants KIND ORACLE TARGET N CAPTURES FIRST")
    };
    let first: usize = first.parse().expect("FIRST is a number");
    let s = Setting { oracle: oracle.into(), target: target.into(), n: n.clone(), captures: captures.clone() };
    let table = std::fs::read_to_string(Path::new(oracle).join(format!("mutants/{kind}.txt"))).expect("a list of mutants");
    let try_it: fn(&Setting, &Mutant) -> Vec<trial::Seen> = match &kind[..] {
        "definitions" => |s, m| vec![trial::definitions(s, m)],
        "text" => |s, m| vec![trial::text(s, m)],
        "code" => |s, m| vec![trial::code(s, m)],
        "library" => trial::library,
        _ => panic!("mutants of definitions, text, code or library"),
    };
    trial::unchanged(&s, kind);
    println!("passes with nothing changed");
    let (mut right, mut wrong) = (0, 0);
    for m in list::parsed(&table).into_iter().skip(first - 1) {
        for seen in try_it(&s, &m) {
            *if seen.caught != m.changes_nothing() { &mut right } else { &mut wrong } += 1;
            println!("{} {}{}", if seen.caught { "seen  " } else { "UNSEEN" }, m.label, seen.how);
        }
    }
    println!("{right} as they must be, {wrong} not");
    std::process::exit((wrong > 0) as i32);
}
