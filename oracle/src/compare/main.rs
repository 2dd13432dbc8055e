//! The proved library, the Rust's text (the oracle) and the model (our definitions, in Rust), case by case. Built without
//! the library (no `--cfg library`) it compares the model with the oracle alone.
//!   compare N FOLDER-OF-CAPTURES [library|model|offsets]
//! The third word: ends at the first disagreement of the library with oracle or model; of the model with the oracle; or of the
//! model with what decides an offset without it.
//! SEED: what the random cases are made from (seed.rs).

mod counts;
mod modelled;
mod question;
mod rows;
mod seed;
mod smaller;
mod tally;

#[cfg(library)]
mod fault;
#[cfg(library)]
mod library;

use cases::rng::Rng;
use cases::{Case, channels, exhaustive, frames, kex, named, tables};
use plain::Side;
use question::{Judge, LIBRARY, MODEL, Question};
use russh::door;
use seed::Seed;
use tally::{First, Tally};

/// Whether each row is shown by running the text.
fn differences() -> bool {
    println!("The rows of docs/DIFFERENCES.md that the Rust's text shows when it is run:");
    std::panic::set_hook(Box::new(|_| {}));
    let rows = door::differences();
    let _ = std::panic::take_hook();
    for (row, holds) in &rows {
        println!("  {} {row}", if *holds { "shown" } else { "NOT SO" });
    }
    rows.iter().all(|(_, holds)| *holds)
}

/// Whether the library could not overstep what it is lent and go on.
#[cfg(library)]
fn guarded() -> bool {
    println!("Stand-ins that overstep what they are lent are ended, each in a child:");
    let all = ours::bites();
    for (what, holds) in &all {
        println!("  {} {what}", if *holds { "shown" } else { "NOT SO" });
    }
    fault::watched();
    all.iter().all(|(_, holds)| *holds)
}

#[cfg(not(library))]
fn guarded() -> bool {
    true
}

/// Whether the answers to document 01's tried bytes are the ones that it gives, whoever is asked.
fn document() -> bool {
    let mut right = true;
    for tried in cases::document() {
        let (_, answer, voices) = Question::Case(tried.case).asked();
        let answers = voices.iter().map(|v| (v.who, &v.answer)).chain([("the oracle", &answer)]);
        for (who, _) in answers.filter(|(_, answer)| !(tried.says)(answer)) {
            println!("NOT SO: document 01's {}, says {who}", tried.what);
            right = false;
        }
    }
    right
}

/// valid tables at their limits, written and read
fn table_limits() -> Vec<Case> {
    let mut cases = Vec::new();
    for (_, t) in tables::limits().into_iter().filter(|(inside, _)| *inside) {
        let payload = kex::plain_fields().payload();
        cases.push(Case::ReadKex { tables: t.clone(), strict_agreed: false, payload });
        cases.push(Case::WriteKex { tables: t, cookie: [5; 16] });
    }
    cases
}

fn exhaustively(tally: &mut Tally, captures: &[(String, Vec<u8>)]) {
    cases::offsets::examples().into_iter().for_each(|e| tally.ask(&Question::Example(e.asked, e.says)));
    let mut all = |what: &str, cases: &mut dyn Iterator<Item = Case>| tally.ask_all(what, cases.map(Question::Case));
    all("document 01's tried bytes", &mut cases::document().into_iter().map(|t| t.case));
    all("document 02's examples", &mut cases::offsets::examples().into_iter().filter_map(|e| e.case().cloned()));
    all("real first packets", &mut captures.iter().flat_map(|(_, bytes)| cases::captured(bytes)));
    all("short packets: every length to 40, padding and slice", &mut frames::short(40));
    all("packets at their limits", &mut frames::limits().into_iter());
    all("KEXINITs at their limits", &mut exhaustive::limits().into_iter());
    all("tables at their limits", &mut table_limits().into_iter());
    all("all small choices", &mut exhaustive::small_choices().into_iter());
    all("all small lists in every field", &mut exhaustive::small_lists().into_iter());
    all("channel bodies at their limits", &mut channels::limits().into_iter());
    all("UTF-8 in a channel type", &mut channels::utf8());
    let names = named::all().filter(|n| cfg!(library) || n.oracle().is_some());
    tally.ask_all("names, lookups, flags and default lists", names.map(Question::Named));
}

type Make = fn(&mut Rng) -> Case;

/// What is random, and how many for each N: what is not a KEXINIT is quick.
const FAMILIES: [(&str, usize, Make); 6] = [
    ("2: KEXINITs put together by hand", 1, kex::by_hand),
    ("3: packets read", 3, frames::read),
    ("4: packets written", 3, frames::write),
    ("5: opening bodies", 3, channels::open),
    ("6: confirmation bodies", 3, channels::confirmation),
    ("7: failures", 3, channels::fail),
];

fn randomly(tally: &mut Tally, seed: Seed, n: usize) {
    println!("random cases, seed {seed} and the family's number, {n} KEXINITs of each family, {} of the others:", 3 * n);
    let mut r = seed.of_family(1);
    let pairs = (0..n.div_ceil(6)).flat_map(|_| kex::pair(&mut r)).map(Question::Case);
    tally.ask_all("1: pairs written by the Rust, read, and read damaged", pairs);
    for ((what, times, make), family) in FAMILIES.into_iter().zip(2..) {
        let mut r = seed.of_family(family);
        tally.ask_all(what, (0..times * n).map(|_| Question::Case(make(&mut r))));
    }
}

/// What only the library and the model can answer, and pairs that the library writes.
#[cfg(library)]
fn with_library(tally: &mut Tally, seed: Seed, n: usize) {
    use cases::beyond;

    let mut r = seed.of_family(8);
    let pairs = (0..n.div_ceil(6)).flat_map(|_| kex::pair_by(&mut r, &library::write_kex)).map(Question::Case);
    tally.ask_all("8: pairs written by the library, read, and read damaged", pairs);
    for ((what, make), family) in [
        ("9: tables out of range", beyond::kex as fn(&mut Rng) -> beyond::Beyond),
        ("10: texts, outs, counts and places out of range", beyond::others),
    ]
    .into_iter()
    .zip(9..)
    {
        let mut r = seed.of_family(family);
        tally.ask_all(what, (0..n).map(|_| Question::Beyond(make(&mut r))));
    }
    tally.ask_all("limits that the Rust has not", beyond::limits().into_iter().map(Question::Beyond));
    let outside = tables::limits().into_iter().filter(|(inside, _)| !inside).flat_map(|(_, t)| beyond::tables(t));
    tally.ask_all("tables past their limits", outside.map(Question::Beyond));
}

#[cfg(not(library))]
fn with_library(_: &mut Tally, _: Seed, _: usize) {}

fn main() {
    let mut args = std::env::args().skip(1);
    let n: usize = args.next().map_or(500_000, |a| a.parse().expect("N is a number"));
    let captures = cases::captures(&args.next().unwrap_or_default());
    let first = args.next().map(|which| match &which[..] {
        "library" => First { who: LIBRARY, judges: &[Judge::Oracle, Judge::Model] },
        "model" => First { who: MODEL, judges: &[Judge::Oracle] },
        "offsets" => First { who: MODEL, judges: &[Judge::Document, Judge::Cut] },
        _ => panic!("the first disagreement of the library, of the model or about offsets"),
    });
    let hurried = first.is_some();
    let mut tally = Tally::new(first);
    let seed = Seed::given();
    let model = if cfg!(library) { "" } else { "model " };
    println!("Seed {seed}. To repeat this run: SEED={seed} oracle/compare.sh {model}{n}");

    let guarded = guarded();
    let shown = differences();
    for side in [Side::Client, Side::Server] {
        let tables = [door::defaults, model::preferred::defaults].map(|f| f(side, &[], &[], &[], &[]));
        assert_eq!(tables[0], tables[1], "default tables");
    }
    println!("  the default tables are Preferred::DEFAULT's");
    println!("The rows on as small an input as shows each:");
    let rows = rows::hold();
    let tried = document();

    println!("   oracle     model  (cases compared with the oracle; with the model alone)");
    if hurried {
        // most mutants are seen by a few random cases
        randomly(&mut tally, seed, n / 50);
        with_library(&mut tally, seed, n / 50);
    }
    exhaustively(&mut tally, &captures);
    randomly(&mut tally, seed, n);
    with_library(&mut tally, seed, n);
    let right = tally.report() && guarded && shown && rows && tried;
    std::process::exit(!right as i32);
}
