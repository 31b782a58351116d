//! Claims: two threads are never at two points together.

use super::{Program, Statement};
use crate::formula::{Assertion, Test};

/// Two threads, each at a point of its own.
#[derive(Clone, Copy, Debug, PartialEq, Eq, Hash)]
pub struct Meeting {
    pub thread: u8,
    pub point: u8,
    pub other_thread: u8,
    pub other_point: u8,
}

/// The claim that there is no such meeting, by this line, 0 for none.
#[derive(Clone, Copy, Debug, PartialEq, Eq, Hash)]
pub struct Claim {
    pub meeting: Meeting,
    pub line: u16,
}

impl Meeting {
    /// What a line must say to rule the meeting out: both assertions, the lower thread's first, give false.
    pub fn wanted(&self, program: &Program) -> Statement {
        let Meeting { thread, point, other_thread, other_point } = *self;
        let mut places = [(thread, point), (other_thread, other_point)];
        places.sort();
        let [first, second] =
            places.map(|(thread, point)| program.assertion(thread, point).clone());
        Statement::Implication {
            left: Assertion::both(first, second).into(),
            right: Assertion::holds(Test::False).into(),
        }
    }
}
