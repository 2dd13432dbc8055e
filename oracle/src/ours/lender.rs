//! How slices are lent: each argument from memory of its own, all of them at the front of it and then all at its back. A
//! byte read or written outside a slice, on one side or the other, then ends the run.

use crate::region::{Edge, READ, Region, WRITE};
use plain::Out;
use std::cell::RefCell;

/// In a refusal's place: where the slices stood changed the answer, or what was written.
pub const UNSTEADY: u8 = 253;

pub struct Lender {
    /// by an argument's place among those of its call
    inputs: Vec<Region>,
    next: usize,
    edge: Edge,
    front: Region,
    back: Region,
}

thread_local! {
    static LENDER: RefCell<Lender> = RefCell::new(Lender {
        inputs: Vec::new(),
        next: 0,
        edge: Edge::Front,
        front: Region::new(WRITE),
        back: Region::new(WRITE),
    });
}

impl Lender {
    /// the next argument's pointer, for reading alone
    pub fn lend<T: Copy>(&mut self, s: &[T]) -> *const T {
        if self.next == self.inputs.len() {
            self.inputs.push(Region::new(READ));
        }
        self.next += 1;
        self.inputs[self.next - 1].lend(s, self.edge)
    }

    fn call<A>(&mut self, edge: Edge, out: &[u8], call: impl Fn(&mut Lender, *mut u8, usize) -> A) -> A {
        (self.edge, self.next) = (edge, 0);
        let lent = if edge == Edge::Front { &mut self.front } else { &mut self.back }.lend(out, edge);
        call(self, lent, out.len())
    }
}

/// The answer to a call that gets `out` and its length, made at both edges; `out` then holds what was written.
pub fn writing<A: PartialEq>(out: &mut [u8], call: impl Fn(&mut Lender, *mut u8, usize) -> A) -> Out<A> {
    LENDER.with_borrow_mut(|l| {
        let answers = [Edge::Front, Edge::Back].map(|edge| l.call(edge, out, &call));
        let (front, back) = (l.front.held(out.len(), Edge::Front), l.back.held(out.len(), Edge::Back));
        let steady = answers[0] == answers[1] && front == back;
        out.copy_from_slice(back);
        let [answer, _] = answers;
        if steady { Ok(answer) } else { Err(UNSTEADY.into()) }
    })
}

/// The same of a call that has no `out`.
pub fn reading<A: PartialEq>(call: impl Fn(&mut Lender) -> A) -> Out<A> {
    writing(&mut [], |l, _, _| call(l))
}
