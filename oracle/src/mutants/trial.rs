//! A mutant of each kind: what is changed, and what must see it.

use crate::compared::{compared, run};
use crate::list::Mutant;
use crate::made::{copy, emptied, linked, program, rlib};
use crate::{Setting, archive};
use std::fs;
use std::path::{Path, PathBuf};
use std::process::Command;

pub struct Seen {
    pub caught: bool,
    /// the first disagreement, for the list
    pub how: String,
}

/// judges, as a comparison names them
const ORACLE: &str = "the oracle";
const MODEL: &str = "the model";
const DOCUMENT: &str = "the document";
const CUT: &str = "the cut";

/// The model with one thing changed, against the oracle; its offsets against the examples, and messages cut there.
pub fn definitions(s: &Setting, m: &Mutant) -> Seen {
    let work = emptied(s);
    copy(&s.oracle.join("model"), &work);
    m.apply(&work);
    rlib(s, "model", &work.join("lib.rs"), &["model"]);
    program(s, &["model"], &[]);
    match m.label.starts_with("offset: ") {
        true => compared(s, &work.join("compare"), "offsets", &[DOCUMENT, CUT]),
        false => compared(s, &work.join("compare"), "model", &[ORACLE]),
    }
}

/// The Rust's text with one thing changed, against the library: what the model says of it does not count.
pub fn text(s: &Setting, m: &Mutant) -> Seen {
    let work = emptied(s);
    copy(&s.target.join("russh"), &work);
    m.apply(&work);
    rlib(s, "russh", &work.join("src/lib.rs"), &["russh", "cases"]);
    rlib(s, "cases", &s.oracle.join("cases/lib.rs"), &["russh", "cases"]);
    program(s, &["russh", "cases"], &linked(Path::new(&libdoor())));
    compared(s, &work.join("compare"), "library", &[ORACLE])
}

/// The library with one byte changed, at each place where the bytes stand; none of a library that cannot have them. Where
/// the Rust has no answer, the model is the judge.
pub fn library(s: &Setting, m: &Mutant) -> Vec<Seen> {
    let archive = fs::read(libdoor()).expect("the library");
    let (old, new) = m.byte();
    if m.file == "x86-64" && !archive::of_x86_64(&archive) {
        println!("not tried, being of x86-64 alone: {}", m.label);
        return vec![];
    }
    let places = archive::places(&archive, &old);
    if places.is_empty() {
        return vec![Seen { caught: false, how: " | stands nowhere in the library".into() }];
    }
    let tried = |at: &usize| {
        let mut changed = archive.clone();
        changed[*at..*at + new.len()].copy_from_slice(&new);
        let file = emptied(s).join("libdoor.a");
        fs::write(&file, changed).expect("the changed library");
        program(s, &[], &linked(&file));
        let seen = compared(s, &s.work().join("compare"), "library", &[ORACLE, MODEL]);
        Seen { how: format!(" | at {at:#x}{}", seen.how), ..seen }
    };
    places.iter().map(tried).collect()
}

/// Our code with one thing changed, unproved, over the recorded answers.
pub fn code(s: &Setting, m: &Mutant) -> Seen {
    let work = repository(s);
    m.apply(&work);
    match replayed(work) {
        Ok(Some(found)) => Seen { caught: true, how: format!(" | {found}") },
        Ok(None) => Seen { caught: false, how: String::new() },
        Err(why) => Seen { caught: false, how: format!(" | {why}") },
    }
}

/// The same with nothing changed, which must pass: else a slip would be seen for another reason.
pub fn unchanged(s: &Setting, kind: &str) {
    if kind == "code" {
        return assert_eq!(replayed(repository(s)), Ok(None), "the replay with nothing changed");
    }
    let run = run(s, &s.target.join("compare"), if kind == "definitions" { "model" } else { "library" });
    if !run.status.success() {
        eprint!("{}{}", String::from_utf8_lossy(&run.stdout), String::from_utf8_lossy(&run.stderr));
        eprintln!("oracle: the comparison fails with nothing changed");
        std::process::exit(run.status.code().unwrap_or(1));
    }
}

fn libdoor() -> String {
    std::env::var("LIBDOOR").expect("LIBDOOR")
}

/// A copy of the crates, outside the repository: the gate lets no code stand in it but in crates/.
fn repository(s: &Setting) -> PathBuf {
    let work = std::env::temp_dir().join(format!("harupesat-mutant-{}", std::process::id()));
    let _ = fs::remove_dir_all(&work);
    let repository = s.oracle.join("..");
    copy(&repository.join("crates"), &work.join("crates"));
    fs::copy(repository.join("crates.txt"), work.join("crates.txt")).expect("crates.txt");
    work
}

/// The first answer that is not the recorded one; an error, if it was not run to its end. What the program writes, as `rt try`
/// compiles it, is held to its file stdout. The copy is gone then.
fn replayed(work: PathBuf) -> Result<Option<String>, String> {
    let folder = work.join("crates/replay");
    let expected = fs::read_to_string(folder.join("stdout")).expect("what the program must write");
    let words = ["try", "--data", "answers=data/answers", "--", "answers"];
    let run = Command::new("rt").args(words).current_dir(folder).output().expect("rt runs");
    fs::remove_dir_all(work).expect("the copy is removed");
    let said = String::from_utf8_lossy(&run.stderr);
    if !said.lines().any(|line| line.starts_with("run=ended status=0 ")) {
        return Err(format!("not run, or not to its end: {said}"));
    }
    let wrote = String::from_utf8_lossy(&run.stdout);
    if wrote == expected {
        return Ok(None);
    }
    let mut differs = wrote.lines().zip(expected.lines()).filter(|(found, wanted)| found != wanted);
    Ok(Some(differs.next().map_or("another end", |(found, _)| found).chars().take(90).collect()))
}
