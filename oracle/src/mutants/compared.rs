//! The comparison with a mutant in it, and what it saw.

use crate::Setting;
use crate::trial::Seen;
use std::ffi::OsStr;
use std::path::Path;
use std::process::{Command, Output};

/// The comparison up to the first disagreement of `who`, on the same cases each time.
pub fn run(s: &Setting, program: &Path, who: &str) -> Output {
    let runner = std::env::var("RUNNER").unwrap_or_default();
    let words: Vec<&OsStr> = runner.split_whitespace().map(OsStr::new).chain([program.as_os_str()]).collect();
    let mut command = Command::new(words[0]);
    command.args(&words[1..]).args([&s.n, &s.captures]).arg(who).env_remove("SEED");
    command.output().expect("the comparison runs")
}

/// A mutant that breaks off was not compared.
pub fn compared(s: &Setting, program: &Path, who: &str, judges: &[&str]) -> Seen {
    let run = run(s, program, who);
    if !matches!(run.status.code(), Some(0 | 1)) {
        return Seen { caught: false, how: format!(" | broke off: {}", String::from_utf8_lossy(&run.stderr)) };
    }
    let Some((function, said)) = disagreement(&run) else {
        return Seen { caught: false, how: String::new() };
    };
    let caught = judges.iter().any(|judge| said.starts_with(judge));
    Seen { caught, how: format!(" | {function} | {said}") }
}

/// The function, and what each said at the disagreement that ended the run, the judge first.
fn disagreement(run: &Output) -> Option<(String, String)> {
    let text = String::from_utf8_lossy(&run.stdout);
    let mut lines = text.lines().skip_while(|l| *l != "disagreement:").skip(1).map(|l| l.trim());
    let function = lines.next()?.split(' ').next().unwrap_or_default().to_string();
    let said: Vec<String> = lines.take_while(|l| l.starts_with("the ")).map(|l| l.chars().take(60).collect()).collect();
    Some((function, said.join("; ")))
}
