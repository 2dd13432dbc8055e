//! The tables of docs/BENCHMARKS.md.

use crate::Group;
use crate::case::{Case, Other};
use crate::figures::Figures;
use crate::goals::Goals;

/// Thousands apart, as in the documents.
pub fn number(value: f64) -> String {
    let digits = format!("{value:.0}");
    let mut out = String::new();
    for (i, digit) in digits.chars().enumerate() {
        if i > 0 && (digits.len() - i) % 3 == 0 && !out.ends_with('-') {
            out.push(',');
        }
        out.push(digit);
    }
    out
}

struct Table {
    counts: Figures,
    times: Option<Figures>,
    goals: Goals,
}

impl Table {
    fn count(&self, group: &Group, case: &Case, side: &str) -> f64 {
        self.counts.of(group.name, case, side).expect("every side is counted")
    }

    fn head(&self, group: &Group) {
        let (time, line) = if self.times.is_some() { (" ours, ns | in time |", "---|---|") } else { ("", "") };
        println!("\n### {}\n\n| case | ours | against | theirs | ours / theirs |{time} goal | |", group.name);
        println!("|---|---|---|---|---|{line}---|---|");
    }

    /// The ratio of times, where times were taken. One side has none: it is a libc of its own.
    fn in_time(&self, group: &Group, case: &Case, other: &Other) -> Option<f64> {
        self.times.as_ref()?.ratio(group.name, case, other.who)
    }

    /// Nanoseconds of ours, and the ratio of times.
    fn time(&self, group: &Group, case: &Case, other: &Other) -> String {
        let Some(times) = &self.times else { return String::new() };
        let ours = number(times.of(group.name, case, "ours").expect("ours is timed"));
        match self.in_time(group, case, other) {
            None => format!(" {ours} | – |"),
            Some(ratio) => format!(" {ours} | {ratio:.3} |"),
        }
    }

    fn goal(&mut self, group: &Group, case: &Case, other: &Other) -> String {
        let ours = self.count(group, case, "ours");
        let ratio = ours / self.count(group, case, other.who);
        let time = self.in_time(group, case, other);
        match (other.goal, case.under) {
            (Some(most), _) => {
                let name = format!("{}: at most {most} of {}", group.name, other.who);
                format!(" {most} | {} |", self.goals.judge(name, ratio, time, |ratio| ratio <= most))
            }
            (None, Some(under)) => {
                let name = format!("{}: under {under} instructions", group.name);
                format!(" under {under} | {} |", self.goals.judge(name, ours, None, |ours| ours < under))
            }
            (None, None) => " | |".to_string(),
        }
    }

    fn row(&mut self, group: &Group, case: &Case, other: &Other, taken_off: bool) {
        let (ours, theirs) = (self.count(group, case, "ours"), self.count(group, case, other.who));
        let ratio = if taken_off { "–".to_string() } else { format!("{:.3}", ours / theirs) };
        let (time, goal) = (self.time(group, case, other), self.goal(group, case, other));
        println!("| {} | {} | {} | {} | {ratio} |{time}{goal}", case.name, number(ours), other.who, number(theirs));
    }

    fn group(&mut self, group: &Group) {
        self.head(group);
        let cases = (group.cases)();
        for case in &cases {
            let taken_off = cases.iter().any(|c| c.less == Some(case.name.as_str()));
            for other in &case.others {
                self.row(group, case, other, taken_off);
            }
        }
    }
}

pub fn print(groups: &[Group], counts: &str, times: Option<&str>) {
    let counts = Figures::read(counts).less_loop();
    let mut table = Table { counts, times: times.map(Figures::read), goals: Goals::none() };
    for group in groups {
        table.group(group);
    }
    table.goals.print();
}
