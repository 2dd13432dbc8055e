//! What was measured of each call.

use crate::LOOP;
use crate::case::Case;
use std::collections::BTreeMap;
use std::fs::read_to_string;

/// By group, case and side.
pub struct Figures(BTreeMap<[String; 3], f64>);

impl Figures {
    /// Lines of GROUP CASE SIDE VALUE.
    pub fn read(file: &str) -> Self {
        let one = |line: &str| {
            let fields: Vec<&str> = line.split('\t').collect();
            let [group, case, side, value] = fields[..] else { panic!("no figure: {line}") };
            let value: f64 = value.parse().unwrap_or_else(|_| panic!("no number: {line}"));
            ([group, case, side].map(String::from), value)
        };
        Figures(read_to_string(file).expect("the figures").lines().map(one).collect())
    }

    /// Without the loop around each call, which was counted by itself.
    pub fn less_loop(mut self) -> Self {
        let [group, case, side] = LOOP;
        let around = self.one(group, case, side).expect("the loop is counted");
        self.0.values_mut().for_each(|value| *value -= around);
        self
    }

    fn one(&self, group: &str, case: &str, side: &str) -> Option<f64> {
        self.0.get(&[group, case, side].map(String::from)).copied()
    }

    /// A side of a case, without the case that is to be taken off.
    pub fn of(&self, group: &str, case: &Case, side: &str) -> Option<f64> {
        let whole = self.one(group, &case.name, side)?;
        match case.less {
            Some(less) => Some(whole - self.one(group, less, side)?),
            None => Some(whole),
        }
    }

    pub fn ratio(&self, group: &str, case: &Case, side: &str) -> Option<f64> {
        Some(self.of(group, case, "ours")? / self.of(group, case, side)?)
    }
}
