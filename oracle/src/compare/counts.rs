//! How often each answer came up, by function.

use cases::Answer;
use plain::Read;

/// an answer's place in a row: accepted, the numbers 1 to 14, need, and what no answer may be
const ACCEPTED: usize = 0;
const NEED: usize = 15;
const OTHER: usize = 16;

#[derive(Default)]
pub struct Counts(Vec<(&'static str, [u64; 17])>);

/// the numbers that have to come up, by function
pub type Wanted = &'static [(&'static str, &'static [u8])];

fn place(answer: &Answer) -> usize {
    match answer {
        Answer::Read(Ok(Read::Need(_))) => NEED,
        a => (a.number() as usize).min(OTHER),
    }
}

fn name(place: usize) -> String {
    match place {
        ACCEPTED => "accepted".into(),
        NEED => "need".into(),
        OTHER => "no answer that may be".into(),
        number => number.to_string(),
    }
}

pub fn sort(answer: &Answer) -> String {
    name(place(answer))
}

impl Counts {
    pub fn count(&mut self, function: &'static str, answer: &Answer) {
        let at = self.0.iter().position(|(f, _)| *f == function).unwrap_or_else(|| {
            self.0.push((function, [0; 17]));
            self.0.len() - 1
        });
        self.0[at].1[place(answer)] += 1;
    }

    pub fn total(&self) -> u64 {
        self.0.iter().flat_map(|(_, row)| row).sum()
    }

    /// how often a number came up
    pub fn of(&self, number: u8) -> u64 {
        self.0.iter().map(|(_, row)| row[number as usize]).sum()
    }

    pub fn print(&self) {
        for (function, row) in &self.0 {
            let each = row.iter().enumerate().filter(|(_, n)| **n > 0).map(|(p, n)| format!("{}: {n}", name(p)));
            println!("  {function}: {}", each.collect::<Vec<_>>().join(", "));
        }
    }

    /// Whether every number wanted came up; says which did not.
    pub fn hold(&self, wanted: Wanted) -> bool {
        let row = |function: &str| self.0.iter().find(|(f, _)| *f == function).map_or([0; 17], |(_, row)| *row);
        let mut whole = true;
        for (function, numbers) in wanted {
            for number in numbers.iter().filter(|n| row(function)[**n as usize] == 0) {
                println!("  {function} never gave {number}");
                whole = false;
            }
        }
        whole
    }
}
