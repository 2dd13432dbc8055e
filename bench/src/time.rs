//! Nanoseconds of each call. The sides of a case take turns, and each keeps its best turn, so that a busy machine is as
//! unkind to one as to the other.

use crate::case::{Call, Case};
use crate::frames::SSE2;
use crate::{Group, repeat};
use std::time::{Duration, Instant};

const TURNS: usize = 60;
const TURN: Duration = Duration::from_millis(4);

fn took(call: &mut Call, times: u64) -> Duration {
    let start = Instant::now();
    repeat(call, times);
    start.elapsed()
}

/// How many calls make a turn.
fn times(call: &mut Call) -> u64 {
    let mut times = 1;
    while took(call, times) < TURN {
        times *= 2;
    }
    times
}

fn best(case: &mut Case) -> Vec<(&'static str, f64)> {
    let mut sides: Vec<(&'static str, &mut Call)> = vec![("ours", &mut case.ours)];
    sides.extend(case.others.iter_mut().filter(|o| o.who != SSE2).map(|o| (o.who, &mut o.call)));
    let mut sides: Vec<_> = sides.into_iter().map(|(who, call)| (who, times(call), call, f64::INFINITY)).collect();
    for _ in 0..TURNS {
        for (_, times, call, best) in &mut sides {
            *best = best.min(took(call, *times).as_secs_f64() * 1e9 / *times as f64);
        }
    }
    sides.into_iter().map(|(who, _, _, best)| (who, best)).collect()
}

pub fn all(groups: &[Group]) {
    for group in groups {
        for mut case in (group.cases)() {
            for (who, nanoseconds) in best(&mut case) {
                println!("{}\t{}\t{who}\t{nanoseconds:.2}", group.name, case.name);
            }
        }
    }
}
