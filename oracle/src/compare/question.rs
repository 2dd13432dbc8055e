//! A question, who answers it, and smaller questions.

use crate::modelled;
use crate::smaller::{fewer_beyond, fewer_in};
use cases::beyond::{self, Beyond};
use cases::cut::{Cut, cut};
use cases::named::Named;
use cases::{Answer, Case, lines};
use plain::Refusal;

#[derive(Clone)]
pub enum Question {
    Case(Case),
    Named(Named),
    Beyond(Beyond),
    /// an example of document 02, and what it says (cases/offsets.rs)
    Example(Beyond, Refusal),
    /// a message, cut where it is refused (cases/cut.rs)
    Cut(Case),
}

use Question::{Beyond as B, Case as C, Cut as K, Example as E, Named as N};

#[derive(Clone, Copy, PartialEq, Eq, PartialOrd, Ord)]
pub enum Judge {
    Oracle,
    Model,
    /// an example
    Document,
    /// what must be said of a cut message
    Cut,
}

impl Judge {
    pub fn name(self) -> &'static str {
        match self {
            Judge::Oracle => "the oracle",
            Judge::Model => "the model",
            Judge::Document => "the document",
            Judge::Cut => "the cut",
        }
    }
}

/// One answer beside the judge's.
pub struct Voice {
    pub who: &'static str,
    pub answer: Answer,
}

/// Who is held to all of this: the library, or where there is none the model.
pub const OURS: &str = if cfg!(library) { LIBRARY } else { MODEL };
pub const LIBRARY: &str = "the library";
pub const MODEL: &str = "the model";

impl Question {
    pub fn function(&self) -> &'static str {
        match self {
            C(case) | K(case) => case.function(),
            N(named) => named.function(),
            B(beyond) | E(beyond, _) => beyond.function(),
        }
    }

    pub fn line(&self) -> String {
        match self {
            C(case) => lines::case(case),
            N(named) => named.line(),
            B(beyond) | E(beyond, _) => beyond.line(),
            K(case) => format!("{}, cut where it is refused", lines::case(case)),
        }
    }

    pub fn size(&self) -> usize {
        match self {
            C(case) | K(case) => case.size(),
            N(_) => 0,
            B(beyond) | E(beyond, _) => beyond.size(),
        }
    }

    fn oracle(&self) -> Option<Answer> {
        match self {
            C(case) => Some(case.oracle()),
            N(named) => named.oracle(),
            B(_) | E(..) | K(_) => None,
        }
    }

    fn model(&self) -> Answer {
        match self {
            C(case) | K(case) => modelled::case(case),
            N(named) => modelled::named(named),
            B(beyond) | E(beyond, _) => modelled::beyond(beyond),
        }
    }

    /// `room`: how many bytes a writer may write
    #[cfg(library)]
    fn library(&self, room: usize) -> Option<Answer> {
        use crate::{fault, library};
        Some(fault::asking(self, || match self {
            C(case) | K(case) => library::case(case, room),
            N(named) => library::named(named),
            B(beyond) | E(beyond, _) => library::beyond(beyond),
        }))
    }

    #[cfg(not(library))]
    fn library(&self, _: usize) -> Option<Answer> {
        None
    }

    fn ours(&self) -> Answer {
        self.library(0).unwrap_or_else(|| self.model())
    }

    /// Who decides, the answer, and what the others say.
    pub fn asked(&self) -> (Judge, Answer, Vec<Voice>) {
        if let K(case) = self {
            return self.cut_at(case);
        }
        let model = Voice { who: MODEL, answer: self.model() };
        let (judge, answer, mut voices) = match (self, self.oracle()) {
            (E(_, says), _) => (Judge::Document, Answer::Bare(Err(*says)), vec![model]),
            (_, Some(answer)) => (Judge::Oracle, answer, vec![model]),
            (_, None) => (Judge::Model, model.answer, vec![]),
        };
        voices.extend(self.library(written(&answer).unwrap_or(0)).map(|answer| Voice { who: LIBRARY, answer }));
        (judge, answer, voices)
    }

    /// What must be said of the message once it is cut, and what is; nobody says anything where it is not to be cut.
    fn cut_at(&self, case: &Case) -> (Judge, Answer, Vec<Voice>) {
        match self.ours().refusal().and_then(|refusal| cut(case, refusal)) {
            None => (Judge::Cut, Answer::Bare(Ok(())), vec![]),
            Some(Cut { case, says, .. }) => {
                (Judge::Cut, Answer::Bare(says), vec![Voice { who: OURS, answer: C(case).ours().bare() }])
            }
        }
    }

    /// What goes with a case that was answered so, and that the model alone decides.
    pub fn beside(&self, answer: &Answer) -> Vec<Question> {
        let refused = answer.refusal().is_some();
        match self {
            C(case) => beyond::beside(case, refused, written(answer)).into_iter().map(B).collect(),
            B(Beyond::Reading(case)) if refused => vec![B(Beyond::Offset(case.clone()))],
            _ => vec![],
        }
    }

    /// The question about the message cut where ours refused it, and the cut.
    pub fn cut(&self, voices: &[Voice]) -> Option<(Question, Cut)> {
        let (C(case) | B(Beyond::Reading(case))) = self else { return None };
        let ours = voices.iter().find(|v| v.who == OURS)?;
        Some((K(case.clone()), cut(case, ours.answer.refusal()?)?))
    }

    /// the same question with something taken away
    pub fn smaller(&self) -> Vec<Question> {
        match self {
            C(case) => fewer_in(case).into_iter().map(C).collect(),
            K(case) => fewer_in(case).into_iter().map(K).collect(),
            N(_) | E(..) => vec![],
            B(beyond) => fewer_beyond(beyond).into_iter().map(B).collect(),
        }
    }
}

/// how many bytes a writer wrote
fn written(answer: &Answer) -> Option<usize> {
    match answer {
        Answer::Bytes(Ok(bytes)) | Answer::Sealed(Ok((bytes, _))) => Some(bytes.len()),
        _ => None,
    }
}
