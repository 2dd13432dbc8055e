//! The benchmark: the same inputs through our library and through the Rust, in one program.
//!   bench list                           what there is to count: GROUP CASE SIDE, a line each
//!   bench run GROUP CASE SIDE TIMES      the call, so many times, under a counter
//!   bench time                           nanoseconds of each call: GROUP CASE SIDE NANOSECONDS, a line each
//!   bench table COUNTS [TIMES]           the tables of docs/BENCHMARKS.md, from what run.sh counted
//! CAPTURES is the folder of the real first packets. Each case asserts that both sides answer the same before it is run.

mod case;
mod channels;
mod figures;
mod frames;
mod goals;
mod judging;
mod kex;
mod library;
mod lookup;
mod same_seed;
mod table;
mod time;

use case::{Call, Case};
use std::path::PathBuf;

pub struct Group {
    pub name: &'static str,
    pub cases: fn() -> Vec<Case>,
}

const GROUPS: [Group; 9] = [
    Group { name: "frame write", cases: frames::writes },
    Group { name: "frame read", cases: frames::reads },
    Group { name: "KEXINIT read", cases: || kex::reads(&captures()) },
    Group { name: "KEXINIT write", cases: kex::writes },
    Group { name: "channel open", cases: channels::opens },
    Group { name: "channel answers", cases: channels::answers },
    Group { name: "UTF-8", cases: judging::texts },
    Group { name: "names", cases: judging::lists },
    Group { name: "lookup", cases: lookup::lookups },
];

/// The loop around a call, which is in every count and is taken off.
const LOOP: [&str; 3] = ["loop", "nothing", "ours"];

fn captures() -> PathBuf {
    std::env::var_os("CAPTURES").expect("CAPTURES is the folder of the real first packets").into()
}

fn list() {
    println!("{}", LOOP.join("\t"));
    for group in &GROUPS {
        for case in (group.cases)() {
            for who in ["ours"].into_iter().chain(case.others.iter().map(|o| o.who)) {
                println!("{}\t{}\t{who}", group.name, case.name);
            }
        }
    }
}

#[inline(never)]
fn repeat(call: &mut Call, times: u64) {
    for _ in 0..times {
        call();
    }
}

fn run(group: &str, name: &str, who: &str, times: u64) {
    if [group, name, who] == LOOP {
        return repeat(&mut (Box::new(|| ()) as Call), times);
    }
    let group = GROUPS.iter().find(|g| g.name == group).expect("a group of the list");
    let mut cases = (group.cases)();
    let case = cases.iter_mut().find(|c| c.name == name).expect("a case of the list");
    repeat(case.side(who).expect("a side of the list"), times);
}

fn main() {
    let args: Vec<String> = std::env::args().skip(1).collect();
    let args: Vec<&str> = args.iter().map(String::as_str).collect();
    match args[..] {
        ["list"] => list(),
        ["run", group, name, who, times] => run(group, name, who, times.parse().expect("a number")),
        ["time"] => time::all(&GROUPS),
        ["table", counts] => table::print(&GROUPS, counts, None),
        ["table", counts, times] => table::print(&GROUPS, counts, Some(times)),
        _ => panic!("bench list | run GROUP CASE SIDE TIMES | time | table COUNTS [TIMES]"),
    }
}
