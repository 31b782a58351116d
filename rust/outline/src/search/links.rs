//! Facts and parts that the writer named, used first and as links of chains.

use crate::search::prover::{Line, Prover};
use crate::terms::*;
use reference::checker::rules::MOST_PREMISES;

impl Prover<'_> {
    /// P to Q by rule 20 over facts that apply one after another.
    pub fn by_facts(&mut self, p: &A, q: &A) -> Option<Line> {
        let mut used: Vec<Line> = Vec::new();
        while used.len() < MOST_PREMISES {
            let applies =
                |line: &&Line| !used.contains(line) && self.enough(p, &self.left(**line), &used);
            let Some(next) = self.facts.iter().find(applies) else { break };
            used.push(*next);
            if self.enough(p, q, &used) {
                return self.by_table(p, q, &used);
            }
        }
        None
    }

    /// P to Q by a fact in the middle, with both gaps searched.
    pub fn by_linked_fact(&mut self, p: &A, q: &A) -> Option<Line> {
        let facts = self.facts.clone();
        self.linking_once(|all| {
            facts.into_iter().find_map(|line| {
                let (left, right) = (all.left(line), all.right(line));
                let first = all.implied(p, &left)?;
                let last = all.implied(&right, q)?;
                let links = [(first, *p == left), (line, false), (last, right == *q)];
                let premises: Vec<Line> =
                    links.into_iter().filter(|(_, same)| !same).map(|(line, _)| line).collect();
                all.fact(20, p, q, &premises)
            })
        })
    }

    /// I in J by an inclusion in the middle, with both gaps searched.
    pub fn by_linked_part(&mut self, i: &I, j: &I) -> Option<Line> {
        let parts = self.parts.clone();
        self.linking_once(|all| {
            parts.into_iter().find_map(|line| {
                let (left, right) = all.statement(line).intervals();
                let (left, right) = (left.clone(), right.clone());
                let first = all.include(i, &left)?;
                let last = all.include(&right, j)?;
                let half = all.link(first, line)?;
                all.link(half, last)
            })
        })
    }

    /// One chain is not sought inside of another.
    fn linking_once(&mut self, search: impl FnOnce(&mut Self) -> Option<Line>) -> Option<Line> {
        if self.linking {
            return None;
        }
        self.linking = true;
        let found = search(self);
        self.linking = false;
        found
    }
}
