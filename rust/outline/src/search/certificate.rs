//! The lines found so far, each conclusion once.

use crate::search::hash::Table;
use reference::checker::rules::{follows_by, Rules, MOST_PREMISES, OF_PAIR};
use reference::formula::nesting::Nesting;
use reference::image::{Program, Statement};

/// One line with formulas in full; premises are places in the list.
#[derive(Debug, Clone)]
pub struct Entry {
    pub rule: u8,
    pub statement: Statement,
    pub premises: Vec<usize>,
}

/// A growing list of justified lines.
#[derive(Debug, Clone, Default)]
pub struct Certificate {
    pub entries: Vec<Entry>,
    /// The rules that lines may go by.
    pub rules: Rules,
    known: Table<Statement, usize>,
    /// What is known of whole pairs: the same words mean something else of a first half.
    pairs: Table<Statement, usize>,
}

impl Certificate {
    /// These lines, to be written down.
    pub fn of(entries: Vec<Entry>) -> Certificate {
        Certificate { entries, ..Certificate::default() }
    }

    /// The place of a line that says this, at a pair's point of the first half.
    pub fn find(&self, statement: &Statement) -> Option<usize> {
        self.known.get(statement).copied()
    }

    /// The conclusions by this rule and those that mean the same by their words.
    fn known_by(&mut self, rule: u8) -> &mut Table<Statement, usize> {
        match rule {
            OF_PAIR => &mut self.pairs,
            _ => &mut self.known,
        }
    }

    /// Adds a line if it follows by its rule and its formulas fit their records.
    pub fn add(
        &mut self,
        program: &Program,
        rule: u8,
        statement: Statement,
        premises: &[usize],
    ) -> Option<usize> {
        if let Some(at) = self.known_by(rule).get(&statement) {
            return Some(*at);
        }
        let given: Vec<&Statement> = premises.iter().map(|p| &self.entries[*p].statement).collect();
        let (left, right) = statement.sides();
        let fits = left.fits_record() && right.fits_record() && premises.len() <= MOST_PREMISES;
        if !fits || !follows_by(self.rules, program, rule, &statement, &given) {
            return None;
        }
        let next = self.entries.len();
        self.known_by(rule).insert(statement.clone(), next);
        self.entries.push(Entry { rule, statement, premises: premises.to_vec() });
        Some(next)
    }

    /// The lines that the given ones rest on, in order, themselves among them.
    pub fn needed(&self, roots: &[usize]) -> Vec<usize> {
        let mut wanted = vec![false; self.entries.len()];
        roots.iter().for_each(|r| wanted[*r] = true);
        for at in (0..self.entries.len()).rev() {
            if wanted[at] {
                self.entries[at].premises.iter().for_each(|p| wanted[*p] = true);
            }
        }
        (0..self.entries.len()).filter(|at| wanted[*at]).collect()
    }
}
