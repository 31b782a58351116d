//! What the search says of an option: does the clause follow from it over its step, in its case?

use crate::infer::ground::Ground;
use crate::infer::have::{Key, Keys};
use crate::infer::options::{place_of, Kind};
use crate::terms::*;
use reference::formula::Assertion;

impl Ground<'_> {
    /// The clauses together, each once.
    fn joined(&self, keys: &Keys) -> A {
        let parts: Vec<A> = keys.iter().map(|(_, clause)| self.assertion(clause)).collect();
        fold_right(&unique(parts), both).unwrap_or_else(|| holds(&truth()))
    }

    /// Does the search find a line for the clause from these?
    pub fn certifies(&mut self, key: &Key, kind: Kind, premises: &Keys) -> bool {
        let wanted = self.wanted(key, kind);
        let (q, mut p) = (self.assertion(&wanted), self.joined(premises));
        if let Some(guard) = kind.from().and_then(|from| self.guard(from.case)) {
            p = if premises.is_empty() { holds(&guard) } else { both(&holds(&guard), &p) };
        }
        self.prover.budget.renew();
        self.prover.tried.clear();
        let found = match kind {
            Kind::Start => self.prover.implication(&Assertion::Start.into(), &q),
            Kind::Branch(from, taken) => {
                let known = holds(&self.branch_test(from, taken));
                self.prover.implication(&both(&p, &known), &q)
            }
            Kind::Step(from) => self.prover.whole(place_of(from), &p, &q),
            Kind::Kept(from) if from.case == key.0.case => {
                let own = self.assertion(&key.1);
                let p = if premises.is_empty() { own } else { both(&own, &p) };
                self.prover.whole(place_of(from), &p, &q)
            }
            Kind::Kept(from) => self.prover.whole(place_of(from), &p, &q),
        };
        found.is_some()
    }

    /// Do the clauses exclude each other, by a line that the search finds?
    pub fn excludes_all(&mut self, keys: &Keys) -> bool {
        let p = self.joined(keys);
        self.prover.budget.renew();
        self.prover.implication(&p, &holds(&falsehood())).is_some()
    }
}
