//! A certificate with fewer formulas: lines that only lead from one line to the next are left out, where the rule of the
//! latter takes what they rest on.

use crate::search::certificate::{Certificate, Entry};
use crate::search::prover::implication;
use reference::checker::rules::{follows, MOST_PREMISES};
use reference::formula::encode::Encode;
use reference::image::{Program, Statement};
use std::collections::{HashMap, HashSet};

/// Rounds over all lines.
const ROUNDS: usize = 4;

/// A certificate that is being shortened: its lines, and the formulas of each by their numbers.
pub struct Shortened<'p> {
    program: &'p Program,
    pub found: Certificate,
    sides: Vec<[usize; 2]>,
    numbers: HashMap<Vec<u8>, usize>,
    /// Formulas of the program, which stand in the image in any case.
    fixed: HashSet<usize>,
    roots: Vec<usize>,
}

impl<'p> Shortened<'p> {
    pub fn of(program: &'p Program, found: &Certificate, roots: &[usize]) -> Shortened<'p> {
        let mut all = Shortened {
            program,
            found: found.clone(),
            sides: Vec::new(),
            numbers: HashMap::new(),
            fixed: HashSet::new(),
            roots: roots.to_vec(),
        };
        let operands = program.threads.iter().flatten().flat_map(|one| one.operands());
        let mut fixed: Vec<Vec<u8>> = operands.map(|formula| formula.encode()).collect();
        fixed.extend(program.outline.iter().flatten().map(|assertion| assertion.encode()));
        all.fixed = fixed.into_iter().map(|bytes| all.number(bytes)).collect();
        for at in 0..all.found.entries.len() {
            let sides = all.sides_of(at);
            all.sides.push(sides);
        }
        all
    }

    fn number(&mut self, formula: Vec<u8>) -> usize {
        let next = self.numbers.len();
        *self.numbers.entry(formula).or_insert(next)
    }

    fn sides_of(&mut self, at: usize) -> [usize; 2] {
        let (left, right) = self.found.entries[at].statement.sides();
        let (left, right) = (left.encode(), right.encode());
        [self.number(left), self.number(right)]
    }

    /// The lines that the roots rest on, each behind those that it rests on itself. New lines stand last in the list, so
    /// that its order does not tell.
    fn needed(&self) -> Vec<usize> {
        let mut order = Vec::new();
        let mut seen = vec![false; self.found.entries.len()];
        let mut work: Vec<(usize, bool)> = self.roots.iter().rev().map(|r| (*r, false)).collect();
        while let Some((at, done)) = work.pop() {
            if done {
                order.push(at);
            } else if !std::mem::replace(&mut seen[at], true) {
                work.push((at, true));
                let premises = self.found.entries[at].premises.iter().rev();
                work.extend(premises.filter(|p| !seen[**p]).map(|p| (*p, false)));
            }
        }
        order
    }

    /// The lines in their new order, and where the roots are among them.
    pub fn lines(&self) -> (Certificate, Vec<usize>) {
        let order = self.needed();
        let mut places = vec![0; self.found.entries.len()];
        (0..).zip(&order).for_each(|(place, at)| places[*at] = place);
        let moved = |at: &usize| {
            let entry = &self.found.entries[*at];
            let premises = entry.premises.iter().map(|p| places[*p]).collect();
            Entry { premises, ..entry.clone() }
        };
        let entries = order.iter().map(moved).collect();
        (Certificate::of(entries), self.roots.iter().map(|at| places[*at]).collect())
    }

    /// How many formulas and lines the roots need.
    pub fn size(&self) -> (usize, usize) {
        let needed = self.needed();
        let mut formulas = self.fixed.clone();
        needed.iter().for_each(|at| formulas.extend(self.sides[*at]));
        (formulas.len(), needed.len())
    }

    /// Leaves out lines in between, until nothing becomes smaller.
    pub fn run(&mut self) {
        for _ in 0..ROUNDS {
            let before = self.size();
            for at in self.needed() {
                self.shorten(at);
            }
            if self.size() == before {
                return;
            }
        }
    }

    /// Other premises for a line, if the whole becomes smaller by them.
    fn shorten(&mut self, at: usize) {
        for premises in self.others(at) {
            let entry = &self.found.entries[at];
            let given: Vec<&Statement> =
                premises.iter().map(|p| &self.found.entries[*p].statement).collect();
            let fits = premises.len() <= MOST_PREMISES
                && follows(self.program, entry.rule, &entry.statement, &given);
            if !fits {
                continue;
            }
            let size = self.size();
            let old = std::mem::replace(&mut self.found.entries[at].premises, premises);
            if self.size() >= size {
                self.found.entries[at].premises = old;
            }
        }
    }

    /// Premises by which the line may follow, too.
    fn others(&mut self, at: usize) -> Vec<Vec<usize>> {
        let Entry { rule, premises, .. } = self.found.entries[at].clone();
        match (rule, &premises[..]) {
            (20, _) => self.without_one(&premises),
            (16, &[first, triple, last]) => self.without_middle([first, triple, last]),
            _ => Vec::new(),
        }
    }

    /// Without a premise, or with what a premise rests on in its place.
    fn without_one(&self, premises: &[usize]) -> Vec<Vec<usize>> {
        let mut all = Vec::new();
        for (n, premise) in premises.iter().enumerate() {
            let mut fewer = premises.to_vec();
            fewer.remove(n);
            all.push(fewer.clone());
            let entry = &self.found.entries[*premise];
            if entry.rule == 20 {
                fewer.extend(entry.premises.iter().filter(|p| !premises.contains(p)));
                all.push(fewer);
            }
        }
        all
    }

    /// Rule 16 about a line of rule 16: the implications of both in one.
    fn without_middle(&mut self, [first, triple, last]: [usize; 3]) -> Vec<Vec<usize>> {
        let Entry { rule: 16, premises: inner, .. } = self.found.entries[triple].clone() else {
            return Vec::new();
        };
        let &[second, core, next] = &inner[..] else { return Vec::new() };
        let joined = (self.joined(first, second), self.joined(next, last));
        match joined {
            (Some(first), Some(last)) => vec![vec![first, core, last]],
            _ => Vec::new(),
        }
    }

    /// P to R from P to Q and Q to R.
    fn joined(&mut self, first: usize, second: usize) -> Option<usize> {
        let is_same = |at: usize| {
            let (left, right) = self.found.entries[at].statement.assertions();
            left == right
        };
        if is_same(first) {
            return Some(second);
        }
        if is_same(second) {
            return Some(first);
        }
        let left = self.found.entries[first].statement.assertions().0.clone();
        let right = self.found.entries[second].statement.assertions().1.clone();
        let wanted = implication(&left, &right);
        let found = self
            .found
            .add(self.program, 20, wanted.clone(), &[])
            .or_else(|| self.found.add(self.program, 20, wanted, &[first, second]))?;
        while self.sides.len() < self.found.entries.len() {
            let sides = self.sides_of(self.sides.len());
            self.sides.push(sides);
        }
        Some(found)
    }
}
