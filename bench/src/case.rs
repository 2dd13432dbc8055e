//! What is measured: the same input through ours and through others.

use plain::Out;
use std::fmt::Debug;
use std::hint::black_box;

/// A call that is measured, with its input at hand.
pub type Call = Box<dyn FnMut()>;

/// Whom ours is measured against, and the goal, if there is one: at most so many times their count.
pub struct Other {
    pub who: &'static str,
    pub goal: Option<f64>,
    pub call: Call,
}

pub struct Case {
    pub name: String,
    pub ours: Call,
    pub others: Vec<Other>,
    /// ours is to stay under so many instructions
    pub under: Option<f64>,
    /// the case whose counts are taken off: what else is in them
    pub less: Option<&'static str>,
}

impl Case {
    pub fn new<T>(name: impl Into<String>, ours: impl FnMut() -> T + 'static) -> Self {
        Case { name: name.into(), ours: call(ours), others: Vec::new(), under: None, less: None }
    }

    pub fn against<T>(mut self, who: &'static str, goal: Option<f64>, theirs: impl FnMut() -> T + 'static) -> Self {
        self.others.push(Other { who, goal, call: call(theirs) });
        self
    }

    pub fn under(mut self, count: f64) -> Self {
        self.under = Some(count);
        self
    }

    pub fn less(mut self, name: &'static str) -> Self {
        self.less = Some(name);
        self
    }

    pub fn side(&mut self, who: &str) -> Option<&mut Call> {
        match who {
            "ours" => Some(&mut self.ours),
            _ => self.others.iter_mut().find(|o| o.who == who).map(|o| &mut o.call),
        }
    }
}

/// The answer is looked at where it stands, and dropped: what the Rust allocated for it is given back within the count.
fn call<T>(mut measured: impl FnMut() -> T + 'static) -> Call {
    Box::new(move || {
        black_box(&measured());
    })
}

/// Both read the same values, or refuse with the same number: the Rust has no offset.
pub fn same<T: PartialEq + Debug>(ours: Out<T>, theirs: &Out<T>) {
    assert_eq!(ours.as_ref().map_err(|refusal| refusal.number), theirs.as_ref().map_err(|refusal| refusal.number));
}

/// Inputs live as long as the program: a call borrows them.
pub fn lent<T: ?Sized>(input: Box<T>) -> &'static T {
    Box::leak(input)
}

pub fn bytes(input: Vec<u8>) -> &'static [u8] {
    lent(input.into_boxed_slice())
}
