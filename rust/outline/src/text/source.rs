//! What a source file says, once it is read.

use crate::terms::{A, I};
use crate::text::lex::Place;
use crate::text::print::Names;
use reference::checker::rules::Rules;
use reference::formula::Formula;
use reference::image::{written, Header, Meeting, Program, Statement, Thread};

/// The assertion of a point, with the formula number that `@` asks for.
#[derive(Debug, Clone)]
pub struct Point {
    pub assertion: A,
    pub number: Option<usize>,
    pub line: Place,
    /// Is it `{ ? }`, or a point of a thread without assertions? Its assertion is to be found; until then it is `true`.
    pub hole: bool,
}

/// The label of each point of a thread.
pub type Labels = Vec<Option<String>>;

/// The claim that two threads are never at two points together.
#[derive(Debug, Clone)]
pub struct Claim {
    pub meeting: Meeting,
    pub line: Place,
}

/// A step of the proof that the writer names.
#[derive(Debug, Clone)]
pub struct Hint {
    pub statement: Statement,
    pub rule: Option<u8>,
    /// What rule 16 or 31 has in the middle.
    pub middle: Option<Middle>,
    pub line: Place,
}

/// The formulas in the middle of a chain: of rule 16 the triple's two sides, of rule 31 one interval.
#[derive(Debug, Clone)]
pub enum Middle {
    Triple(A, A),
    Interval(I),
}

/// A certificate written out in full.
#[derive(Debug, Clone, Default)]
pub struct Certificate {
    pub formulas: Vec<Formula>,
    pub lines: Vec<written::Line>,
    pub obligations: Vec<u16>,
    /// A line for each claim, 0 for none.
    pub claims: Vec<u16>,
}

/// A whole source.
#[derive(Debug, Clone)]
pub struct Source {
    /// The rules that lines may go by; the text does not say them.
    pub rules: Rules,
    pub header: Header,
    pub names: Names,
    pub threads: Vec<Thread>,
    pub points: Vec<Vec<Point>>,
    /// The labels of each thread's points.
    pub labels: Vec<Labels>,
    /// The numbers that `@` asks for, by thread, instruction and its formulas.
    pub code_numbers: Vec<Vec<Vec<Option<usize>>>>,
    pub claims: Vec<Claim>,
    pub hints: Vec<Hint>,
    pub certificate: Option<Certificate>,
}

impl Source {
    /// The thread and the point by their names, the point perhaps by its number.
    pub fn place(&self, thread: &str, point: &str) -> Option<(u8, u8)> {
        let index = self.names.threads.iter().position(|name| name == thread)?;
        let labels = &self.labels[index];
        let labelled = labels.iter().position(|label| label.as_deref() == Some(point));
        let found = labelled.or_else(|| point.parse().ok())?;
        (found < labels.len()).then_some((index as u8 + 1, found as u8))
    }

    /// Is there a point whose assertion is to be found?
    pub fn has_holes(&self) -> bool {
        self.points.iter().flatten().any(|point| point.hole)
    }

    /// What is claimed never to happen.
    pub fn meetings(&self) -> Vec<Meeting> {
        self.claims.iter().map(|claim| claim.meeting).collect()
    }

    /// The program with its outline.
    pub fn program(&self) -> Program {
        let assertions = |points: &Vec<Point>| points.iter().map(|p| p.assertion.clone()).collect();
        Program {
            header: self.header.clone(),
            threads: self.threads.clone(),
            outline: self.points.iter().map(assertions).collect(),
        }
    }
}
