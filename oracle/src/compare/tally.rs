//! How often each answer came up, and where two differ.

use crate::counts::{Counts, Wanted, sort};
use crate::question::{Judge, OURS, Question, Voice};
use cases::beyond::Beyond;
use cases::{Answer, cut, lines};
use std::collections::BTreeMap;

/// the function, the judge's answer, who says otherwise, and what
type Difference = (&'static str, String, &'static str, String);

/// The first disagreement of one with any of these judges.
pub struct First {
    pub who: &'static str,
    pub judges: &'static [Judge],
}

#[derive(Default)]
pub struct Tally {
    /// which disagreement ends the run; others are not looked for then
    first: Option<First>,
    oracle: Counts,
    model: Counts,
    /// where readers refused, which the model alone says
    offset: Counts,
    document: Counts,
    /// messages cut where they were refused, by the number that they were refused with
    cut: Counts,
    /// those of which nothing is cut off
    missing: Counts,
    /// how many, and the smallest question
    disagreements: BTreeMap<Difference, (u64, Question)>,
}

impl Tally {
    pub fn new(first: Option<First>) -> Tally {
        Tally { first, ..Tally::default() }
    }

    pub fn ask(&mut self, question: &Question) {
        let (judge, answer, voices) = self.put(question);
        let counts = match (judge, question) {
            (_, Question::Beyond(Beyond::Offset(_))) => &mut self.offset,
            (Judge::Oracle, _) => &mut self.oracle,
            (Judge::Model, _) => &mut self.model,
            (Judge::Document, _) => &mut self.document,
            (Judge::Cut, _) => unreachable!("what is cut is counted by what it was"),
        };
        counts.count(question.function(), &answer);
        if cfg!(library) {
            question.beside(&answer).iter().for_each(|q| self.ask(q));
        }
        self.ask_cut(question, &voices);
    }

    /// Who decided, the answer, and what the others said; keeps who said otherwise.
    fn put(&mut self, question: &Question) -> (Judge, Answer, Vec<Voice>) {
        let (judge, answer, voices) = question.asked();
        for voice in voices.iter().filter(|v| !answer.given_by(&v.answer)) {
            if self.first.as_ref().is_none_or(|f| f.who == voice.who && f.judges.contains(&judge)) {
                self.disagree(question, (question.function(), sort(&answer), voice.who, sort(&voice.answer)));
            }
        }
        (judge, answer, voices)
    }

    /// A message that was refused, once more, cut there.
    fn ask_cut(&mut self, question: &Question, voices: &[Voice]) {
        let Some((again, cut)) = question.cut(voices) else { return };
        let counts = if cut.nothing { &mut self.missing } else { &mut self.cut };
        counts.count(question.function(), &Answer::Bare(Err(cut.refusal)));
        if !cut.nothing {
            self.put(&again);
        }
    }

    pub fn ask_all(&mut self, what: &str, questions: impl Iterator<Item = Question>) {
        let before = (self.oracle.total(), self.model.total());
        questions.for_each(|q| self.ask(&q));
        let (oracle, model) = (self.oracle.total() - before.0, self.model.total() - before.1);
        println!("{oracle:>9} {model:>9}  {what}");
    }

    fn disagree(&mut self, question: &Question, difference: Difference) {
        let (count, kept) =
            self.disagreements.entry(difference.clone()).or_insert_with(|| (0, smallest(question, &difference)));
        *count += 1;
        if *count < 20 && *count > 1 {
            let small = smallest(question, &difference);
            if small.size() < kept.size() {
                *kept = small;
            }
        }
        if self.first.is_some() {
            println!("disagreement:");
            show(kept);
            std::process::exit(1);
        }
    }

    /// Prints the counts and the disagreements; whether there is none and every number wanted came up.
    pub fn report(&self) -> bool {
        println!("How often each answer came up, compared with the oracle:");
        self.oracle.print();
        let mut whole = self.oracle.hold(ORACLE);
        if cfg!(library) {
            println!("How often each answer came up where the Rust has none, compared with the model alone:");
            self.model.print();
            whole &= self.model.hold(MODEL);
            let times = |n: u8| format!("{n}: {}", self.oracle.of(n) + self.model.of(n));
            println!("Numbers 1 to 14: {}", (1..=14).map(times).collect::<Vec<_>>().join(", "));
            println!("The offset of each reader's refusal, of which the Rust has none, compared with the model's:");
            self.offset.print();
            whole &= self.offset.hold(OFFSET);
        }
        whole &= self.report_offsets();
        let mut differ = 0;
        for ((function, answer, who, says), (count, question)) in &self.disagreements {
            differ += count;
            println!("DISAGREE {function}: {answer}, {who} {says}, {count} cases; the smallest:");
            show(question);
        }
        println!(
            "{} cases compared with the oracle, {} with the model alone, {} offsets with the model's, {} messages cut, \
             {differ} disagreements",
            self.oracle.total(),
            self.model.total(),
            self.offset.total(),
            self.cut.total()
        );
        whole && differ == 0
    }

    /// What neither the oracle nor the model decides.
    fn report_offsets(&self) -> bool {
        let who = if cfg!(library) { "the model and the library" } else { "the model" };
        println!("Number and offset of document 02's examples, asked of {who}:");
        self.document.print();
        println!("Messages cut where {OURS} refused them, then 2 at the same offset (5: accepted), by the first number:");
        self.cut.print();
        println!("Not cut, since the field that was refused with 2 is missing altogether:");
        self.missing.print();
        self.cut.hold(cut::NUMBERS)
    }
}

/// the numbers that the Rust can give, by function
const ORACLE: Wanted = cases::NUMBERS;

/// the numbers that it has not, or has not there
const MODEL: Wanted = &[
    ("read_kex", &[1, 9]),
    ("write_kex", &[8, 9]),
    ("frame_write", &[4, 8]),
    ("open", &[1]),
    ("confirmation", &[1]),
    ("fail", &[1, 8]),
    ("unknown_type", &[8]),
    ("show", &[2]),
    ("spelling", &[8, 9]),
    ("lookup", &[9]),
    ("needs_mac", &[9]),
    ("built_in_integrity", &[9]),
    ("default_list", &[8, 9]),
];

/// the numbers that a reader can give
const OFFSET: Wanted = &[
    ("read_kex, offset", &[1, 2, 3, 5, 6, 9, 10, 11, 12, 13, 14]),
    ("frame_read, offset", &[4, 7]),
    ("open, offset", &[1, 2, 3, 5, 6]),
    ("confirmation, offset", &[1, 2, 6]),
];

fn show(question: &Question) {
    let (judge, answer, voices) = question.asked();
    println!("  {}", question.line());
    for Voice { who, answer } in [Voice { who: judge.name(), answer }].iter().chain(&voices) {
        println!("  {who:>12}: {}", lines::answer(answer));
    }
}

/// The most bytes that a search for the smallest question puts again, in all.
const SOUGHT: usize = 8_000_000;

/// the same difference on as small a question as can be found by taking away
fn smallest(question: &Question, difference: &Difference) -> Question {
    let same = |q: &Question| {
        let (_, answer, voices) = q.asked();
        sort(&answer) == difference.1
            && voices.iter().any(|v| v.who == difference.2 && !answer.given_by(&v.answer) && sort(&v.answer) == difference.3)
    };
    let mut best = question.clone();
    let mut sought = 0;
    'again: while sought < SOUGHT {
        for next in best.smaller() {
            if next.size() < best.size() && sought < SOUGHT {
                sought += next.size() + 1;
                if same(&next) {
                    best = next;
                    continue 'again;
                }
            }
        }
        break;
    }
    best
}
