//! The clauses of a point as modes: sets of literals of which every sampled state there has one, and each of which gives
//! all clauses.

use crate::infer::cases::Spot;
use crate::infer::clauses::{size, Clause, Literal};
use crate::infer::ground::Ground;
use crate::terms::*;
use std::collections::BTreeSet;

/// More ways than this to have all clauses are not written out.
const MOST_WAYS: usize = 8;

impl Ground<'_> {
    /// The least sets of literals that have one of each clause, whatever the states: together they say what the clauses
    /// say. None if there are too many.
    pub fn ways(&mut self, clauses: &[Clause]) -> Option<Vec<Vec<A>>> {
        let mut order: Vec<&Clause> = clauses.iter().collect();
        order.sort_by_key(|clause| clause.len());
        let mut sets: Vec<BTreeSet<Literal>> = vec![BTreeSet::new()];
        for clause in order {
            let mut next: Vec<BTreeSet<Literal>> = Vec::new();
            for set in sets {
                if clause.iter().any(|n| set.contains(n)) {
                    next.push(set);
                    continue;
                }
                for n in clause {
                    let mut more = set.clone();
                    more.insert(*n);
                    if !self.is_absurd(&more) {
                        next.push(more);
                    }
                }
            }
            let least =
                |set: &BTreeSet<Literal>| !next.iter().any(|o| o != set && o.is_subset(set));
            let kept: Vec<BTreeSet<Literal>> = next.iter().filter(|s| least(s)).cloned().collect();
            sets = unique(kept);
            if sets.len() > 4 * MOST_WAYS {
                return None;
            }
        }
        let written =
            |set: &BTreeSet<Literal>| set.iter().map(|n| self.formula(*n).clone()).collect();
        (sets.len() <= MOST_WAYS).then(|| sets.iter().map(written).collect())
    }

    /// Do the tests among the literals exclude each other?
    fn is_absurd(&mut self, set: &BTreeSet<Literal>) -> bool {
        let tests: Vec<T> =
            set.iter().filter_map(|n| self.formula(*n).as_holds().cloned()).collect();
        fold_right(&tests, and).is_some_and(|e| self.prover.by_rows(&e, &falsehood()))
    }

    pub fn modes(&mut self, place: Spot, clauses: &[Clause]) -> Vec<Vec<A>> {
        let hits = |set: &[Literal]| clauses.iter().all(|c| c.iter().any(|n| set.contains(n)));
        let mut left: Vec<Vec<Literal>> = self.true_sets(place, clauses).into_iter().collect();
        left.sort_by_key(|set| set.len());
        let mut modes: Vec<Vec<Literal>> = Vec::new();
        while !left.is_empty() {
            let mut mode = left[0].clone();
            for other in &left[1..] {
                let joint: Vec<Literal> =
                    mode.iter().copied().filter(|n| other.contains(n)).collect();
                if hits(&joint) {
                    mode = joint;
                }
            }
            left.retain(|set| !mode.iter().all(|n| set.contains(n)));
            modes.push(self.without_needless(mode, clauses, &hits));
        }
        modes.iter().map(|mode| self.formulas(mode)).collect()
    }

    /// The sets of literals that are true together in the sampled states there.
    fn true_sets(&mut self, place: Spot, clauses: &[Clause]) -> BTreeSet<Vec<Literal>> {
        let literals: BTreeSet<Literal> = clauses.iter().flatten().copied().collect();
        let there = self.sample.there(place).clone();
        let truth: Vec<(Literal, _)> =
            literals.into_iter().map(|n| (n, self.states_of(n).clone())).collect();
        let of = |k: usize| truth.iter().filter(|(_, bits)| bits.has(k)).map(|(n, _)| *n).collect();
        there.numbers().map(of).collect()
    }

    /// What a mode does not need for the clauses is left out, chains of views first.
    fn without_needless(
        &self,
        mut mode: Vec<Literal>,
        clauses: &[Clause],
        hits: &dyn Fn(&[Literal]) -> bool,
    ) -> Vec<Literal> {
        let mut order = mode.clone();
        order.sort_by_key(|n| std::cmp::Reverse(size(self.formula(*n))));
        for n in order {
            let fewer: Vec<Literal> = mode.iter().copied().filter(|m| *m != n).collect();
            let alone = clauses.iter().any(|c| c.len() == 1 && c[0] == n);
            if !alone && hits(&fewer) {
                mode = fewer;
            }
        }
        mode
    }
}
