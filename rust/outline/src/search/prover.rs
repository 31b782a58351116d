//! The search for lines: what all its parts share.

use crate::search::budget::Budget;
use crate::search::certificate::Certificate;
use crate::search::hash::{Set, Table};
use crate::search::tried::Lacking;
use crate::terms::*;
use crate::text::print::Names;
use reference::checker::rules::rows::implies_by_rows;
use reference::image::{Instruction, Program, Statement};

/// A place in the certificate.
pub type Line = usize;

/// The search: the program, the lines found, and what is known not to be found.
pub struct Prover<'a> {
    pub program: &'a Program,
    pub lines: Certificate,
    /// Inclusions that were not found, with the depth that was tried; inside of a chain and outside.
    pub missed: [Table<(I, I), u8>; 2],
    /// Did the depth end the search for the inclusion at hand? A miss that it did not end is one at any depth.
    pub cut_short: bool,
    /// Implications that were not found, for each kind of search.
    pub refuted: [Set<(A, A)>; 4],
    /// Triples from one view that were not found, with the kind of search.
    pub unreached: Set<(At, I, A, usize)>,
    /// How much of the search is left for the obligation or the step at hand.
    pub budget: Budget,
    /// Lines without premises that do not fit their rule: rows are slow to try again.
    pub unfit: Set<(u8, Statement)>,
    /// What was found by rows.
    pub rows: Table<(T, T), bool>,
    /// Implications that the writer named.
    pub facts: Vec<Line>,
    /// Triples that the writer named.
    pub steps: Vec<Line>,
    /// Where steps stand among the ways to a part of a goal.
    pub steps_stand: Stand,
    /// Obligations that were not found when a step was named that they might make up.
    pub postponed: Set<Statement>,
    /// Inclusions that the writer named.
    pub parts: Vec<Line>,
    /// Is what was named tried as a link already? One chain is not sought inside of another.
    pub linking: bool,
    /// What was tried for the obligation at hand, for the message if it stays open.
    pub tried: Vec<String>,
    /// The case of the obligation at hand that nothing served.
    pub lacking: Option<Lacking>,
    pub names: Names,
    /// Are views joined with the tests about their own registers, and for these with other threads' views?
    pub wide: bool,
}

impl<'a> Prover<'a> {
    /// The depth of a miss that no depth makes good.
    pub const WHATEVER_DEPTH: u8 = u8::MAX;

    pub fn new(program: &'a Program, names: Names) -> Self {
        Prover {
            program,
            lines: Certificate::default(),
            missed: Default::default(),
            cut_short: false,
            refuted: Default::default(),
            unreached: Set::default(),
            budget: Budget::default(),
            unfit: Set::default(),
            rows: Table::default(),
            facts: Vec::new(),
            steps: Vec::new(),
            steps_stand: Stand::Nowhere,
            postponed: Set::default(),
            parts: Vec::new(),
            linking: false,
            tried: Vec::new(),
            lacking: None,
            names,
            wide: false,
        }
    }

    pub fn statement(&self, line: Line) -> &Statement {
        &self.lines.entries[line].statement
    }
    /// The left side of an implication or a triple.
    pub fn left(&self, line: Line) -> A {
        self.statement(line).assertions().0.clone()
    }
    /// The right side of an implication or a triple.
    pub fn right(&self, line: Line) -> A {
        self.statement(line).assertions().1.clone()
    }

    fn add(&mut self, rule: u8, statement: Statement, premises: &[Line]) -> Option<Line> {
        if !self.budget.spend() {
            return None;
        }
        let key = (rule, statement);
        if premises.is_empty() && self.unfit.contains(&key) {
            return None;
        }
        let found = self.lines.add(self.program, rule, key.1.clone(), premises);
        if found.is_none() && premises.is_empty() {
            self.unfit.insert(key);
        }
        found
    }

    /// The kind of search under way: wide or not, inside of a chain or not. What one misses another may find.
    pub fn kind(&self) -> usize {
        usize::from(self.wide) + 2 * usize::from(self.linking)
    }

    /// What was not found before may be found with a new line: triples rest on implications, and these on inclusions.
    /// A triple from one view may rest on another one of the same instruction, and on no other triple.
    pub fn forget_failures(&mut self, named: &Statement) {
        match named {
            Statement::Triple { thread, point, left, .. } => {
                if left.as_sees().is_some_and(|(u, _)| u == *thread) {
                    let at = At { thread: *thread, point: *point };
                    self.unreached.retain(|(place, ..)| *place != at);
                }
                return;
            }
            Statement::Implication { .. } => {}
            Statement::Inclusion { .. } => self.missed = Default::default(),
        }
        self.unreached.clear();
        self.refuted = Default::default();
    }

    /// A search that also joins views with the tests about their own registers, and views of two threads:
    /// slower, and with longer proofs, so only where the other finds nothing.
    pub fn widened(&mut self, search: impl FnOnce(&mut Self) -> Option<Line>) -> Option<Line> {
        if self.wide {
            return search(self);
        }
        self.wide = true;
        let found = search(self);
        self.wide = false;
        found
    }

    /// Does one test imply another by rows? Each pair is tried once.
    pub fn by_rows(&mut self, left: &T, right: &T) -> bool {
        let key = (left.clone(), right.clone());
        let range = self.program.header.counts.range;
        let found = || implies_by_rows(left, right, range) == Some(true);
        *self.rows.entry(key).or_insert_with(found)
    }

    /// An inclusion line, if it fits its rule.
    pub fn part(&mut self, rule: u8, left: &I, right: &I, premises: &[Line]) -> Option<Line> {
        self.add(rule, inclusion(left, right), premises)
    }

    /// An implication line, if it fits its rule.
    pub fn fact(&mut self, rule: u8, left: &A, right: &A, premises: &[Line]) -> Option<Line> {
        self.add(rule, implication(left, right), premises)
    }

    /// A triple line, if it fits its rule.
    pub fn step(
        &mut self,
        at: At,
        rule: u8,
        left: &A,
        right: &A,
        premises: &[Line],
    ) -> Option<Line> {
        self.add(rule, at.triple(left, right), premises)
    }

    /// The instruction at a place that has one; of a pair the first half, of which its lines speak.
    pub fn instruction(&self, at: At) -> Instruction {
        let whole = self.program.instruction(at.thread, at.point);
        whole.expect("an instruction stands here").first_half()
    }

    /// Rule 16; a missing implication is the identity, and none at all needs no line.
    pub fn consequence(
        &mut self,
        at: At,
        first: Option<Line>,
        triple: Line,
        last: Option<Line>,
    ) -> Option<Line> {
        if first.is_none() && last.is_none() {
            return Some(triple);
        }
        let (p, q) = (self.left(triple), self.right(triple));
        let first = match first {
            Some(l) => l,
            None => self.identity(&p)?,
        };
        let last = match last {
            Some(l) => l,
            None => self.identity(&q)?,
        };
        let (left, right) = (self.left(first), self.right(last));
        self.step(at, 16, &left, &right, &[first, triple, last])
    }

    /// P to P: by table, or by rows or inclusion where there are too many leaves.
    pub fn identity(&mut self, p: &A) -> Option<Line> {
        if let Some(line) = self.fact(20, p, p, &[]) {
            return Some(line);
        }
        self.fact(21, p, p, &[])
    }

    /// P to R from P to Q and Q to R.
    pub fn chain(&mut self, first: Line, second: Line) -> Option<Line> {
        let (p, r) = (self.left(first), self.right(second));
        if self.left(first) == self.right(first) {
            return Some(second);
        }
        if self.left(second) == self.right(second) {
            return Some(first);
        }
        self.fact(20, &p, &r, &[first, second])
    }
}

/// Where the steps that were named stand among the ways to a part of a goal. No order is best: a way that comes first
/// may ask for leaves that another one does not, so each is tried.
#[derive(Debug, Clone, Copy, PartialEq, Eq)]
pub enum Stand {
    Last,
    First,
    Nowhere,
}

/// An instruction's place: thread from 1, point from 0.
#[derive(Debug, Clone, Copy, PartialEq, Eq, Hash)]
pub struct At {
    pub thread: u8,
    pub point: u8,
}

impl At {
    /// The instruction here takes the left side to the right one.
    pub fn triple(self, left: &A, right: &A) -> Statement {
        let At { thread, point } = self;
        Statement::Triple { thread, point, left: left.clone(), right: right.clone() }
    }
}

pub fn implication(left: &A, right: &A) -> Statement {
    Statement::Implication { left: left.clone(), right: right.clone() }
}

pub fn inclusion(left: &I, right: &I) -> Statement {
    Statement::Inclusion { left: left.clone(), right: right.clone() }
}
