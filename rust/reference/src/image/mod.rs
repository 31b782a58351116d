//! A decoded image: program, outline, certificate, obligation numbers, claims.

mod claim;
mod instruction;
pub mod written;

use crate::checker::rules::Rules;
use crate::formula::parse::Counts;
use crate::formula::{Assertion, Formula, Interval};
pub use claim::{Claim, Meeting};
pub use instruction::{Access, Instruction, Note};
use std::ops::RangeInclusive;
use std::rc::Rc;

/// Counts, start values, owners and start marks.
#[derive(Clone, Debug, PartialEq, Eq)]
pub struct Header {
    pub counts: Counts,
    /// The value of each word at start.
    pub start: Vec<u8>,
    /// The thread that owns each register.
    pub owners: Vec<u8>,
    /// For each register 1 if it starts at 0, 0 if it may start at any value.
    pub marks: Vec<u8>,
}

impl Header {
    /// A header whose registers all start at 0.
    pub fn cleared(counts: Counts, start: Vec<u8>, owners: Vec<u8>) -> Header {
        let marks = vec![1; owners.len()];
        Header { counts, start, owners, marks }
    }

    /// Whether a register starts at 0; registers count from 1.
    pub fn is_cleared(&self, register: u8) -> bool {
        self.marks[usize::from(register) - 1] == 1
    }
}

/// What a line of the certificate says.
#[derive(Clone, Debug, PartialEq, Eq, Hash)]
pub enum Statement {
    /// The instruction at this point takes the left assertion to the right one.
    Triple { thread: u8, point: u8, left: Rc<Assertion>, right: Rc<Assertion> },
    /// The left assertion implies the right one.
    Implication { left: Rc<Assertion>, right: Rc<Assertion> },
    /// The left interval is contained in the right one.
    Inclusion { left: Rc<Interval>, right: Rc<Interval> },
}

impl Statement {
    /// The instruction's thread and point, 0 for a line that is about none.
    pub fn place(&self) -> (u8, u8) {
        match self {
            Statement::Triple { thread, point, .. } => (*thread, *point),
            Statement::Implication { .. } | Statement::Inclusion { .. } => (0, 0),
        }
    }

    /// Left and right.
    pub fn sides(&self) -> (Formula, Formula) {
        match self {
            Statement::Triple { left, right, .. } | Statement::Implication { left, right } => {
                (Formula::Assertion(left.clone()), Formula::Assertion(right.clone()))
            }
            Statement::Inclusion { left, right } => {
                (Formula::Interval(left.clone()), Formula::Interval(right.clone()))
            }
        }
    }

    /// Left and right of a triple or an implication.
    pub fn assertions(&self) -> (&Rc<Assertion>, &Rc<Assertion>) {
        match self {
            Statement::Triple { left, right, .. } | Statement::Implication { left, right } => {
                (left, right)
            }
            Statement::Inclusion { .. } => panic!("an inclusion has no assertions"),
        }
    }

    /// Left and right of an inclusion.
    pub fn intervals(&self) -> (&Rc<Interval>, &Rc<Interval>) {
        match self {
            Statement::Inclusion { left, right } => (left, right),
            _ => panic!("only an inclusion has intervals"),
        }
    }
}

/// One line of the certificate. Premises are line numbers, counted from 1.
#[derive(Clone, Debug, PartialEq, Eq)]
pub struct Line {
    pub rule: u8,
    pub statement: Statement,
    pub premises: Vec<u16>,
}

/// The instructions of a thread: one less than its points.
pub type Thread = Vec<Instruction>;

/// A program and the assertions at its points.
#[derive(Clone, Debug, PartialEq, Eq)]
pub struct Program {
    pub header: Header,
    pub threads: Vec<Thread>,
    /// An assertion for each thread and point.
    pub outline: Vec<Vec<Rc<Assertion>>>,
}

impl Program {
    /// The instruction at a point of a thread, if there is one.
    pub fn instruction(&self, thread: u8, point: u8) -> Option<&Instruction> {
        self.threads.get(usize::from(thread).checked_sub(1)?)?.get(usize::from(point))
    }

    /// Whether there is a pair at a point of a thread.
    pub fn is_pair(&self, (thread, point): (u8, u8)) -> bool {
        self.instruction(thread, point).is_some_and(Instruction::is_pair)
    }

    pub fn thread_numbers(&self) -> RangeInclusive<u8> {
        1..=self.threads.len() as u8
    }

    /// The assertion at a point of a thread.
    pub fn assertion(&self, thread: u8, point: u8) -> &Rc<Assertion> {
        &self.outline[usize::from(thread) - 1][usize::from(point)]
    }
}

/// A decoded image.
#[derive(Clone, Debug, PartialEq, Eq)]
pub struct Image {
    pub program: Program,
    /// The rules that its lines go by.
    pub rules: Rules,
    pub lines: Vec<Line>,
    /// A line number per obligation, 0 for none.
    pub obligations: Vec<u16>,
    pub claims: Vec<Claim>,
    /// How many records there are; those of the claims are the last.
    pub records: usize,
}
