//! crates/answer/specs/Answer, and document 02, No. 6

#[derive(Debug, Clone, Copy, PartialEq, Eq)]
pub struct Refusal {
    pub number: u8,
    /// from the first byte of the payload or body, in framing from the packet's; a writer's is not asked for
    pub offset: usize,
}

pub type Out<A> = Result<A, Refusal>;

pub fn refuse_at<A>(n: u8, at: usize) -> Out<A> {
    Err(Refusal { number: n, offset: at })
}

/// where no field is to blame, or the first
pub fn refuse<A>(n: u8) -> Out<A> {
    refuse_at(n, 0)
}

/// goes on where the test holds, else refuses with n
pub fn guard(n: u8, test: bool) -> Out<()> {
    guard_at(n, 0, test)
}

pub fn guard_at(n: u8, at: usize, test: bool) -> Out<()> {
    if test { Ok(()) } else { refuse_at(n, at) }
}

/// the same answer, whatever is refused in it being refused there
pub fn placed<A>(at: usize, answer: Out<A>) -> Out<A> {
    answer.map_err(|r| Refusal { offset: at, ..r })
}
