//! The clauses of a point in each of its cases: one assertion for those cases that say the same.

use crate::infer::assemble::{Form, Merging};
use crate::infer::cases::Spot;
use crate::infer::clauses::Clause;
use crate::infer::ground::Ground;
use crate::infer::packed::{packed, Level};
use crate::infer::sample::Place;
use crate::terms::*;
use std::collections::BTreeMap;

/// The clauses of each spot.
pub type Clauses = BTreeMap<Spot, Vec<Clause>>;

/// What is said in some cases, together.
type Group = (Vec<A>, Vec<u8>);

impl Ground<'_> {
    /// The clauses of a point beyond what is known.
    pub fn in_cases(
        &mut self,
        place: Place,
        found: &Clauses,
        known: &[Clause],
        form: Form,
    ) -> Vec<A> {
        let of = |spot: Spot| -> Vec<Clause> {
            let all = found.get(&spot).into_iter().flatten();
            all.filter(|clause| !known.contains(clause)).cloned().collect()
        };
        let spots: Vec<Spot> = self.sample.cases.at(place).collect();
        if self.sample.cases.is_whole() || self.silent.contains(&place) {
            return spots.first().map_or(vec![], |spot| self.in_form(*spot, &of(*spot), form));
        }
        let mut groups: Vec<Group> = Vec::new();
        for spot in spots {
            let clauses = self.without_implied(&of(spot));
            for said in self.said(spot, &clauses, form) {
                let all = matches!(form, Form::Ways(_, Merging::All));
                let like = |other: &u8| all || self.are_alike(found, spot.case, *other);
                let same = |(other, cases): &&mut Group| *other == said && cases.iter().all(like);
                match groups.iter_mut().find(same) {
                    Some((_, cases)) => cases.push(spot.case),
                    None => groups.push((said, vec![spot.case])),
                }
            }
        }
        let modes: Vec<A> =
            groups.iter().enumerate().map(|(n, group)| self.with_guard(place, n, group)).collect();
        fold_right(&modes, either).into_iter().collect()
    }

    /// What is said in one case: its modes, else all its clauses in their form.
    fn said(&mut self, spot: Spot, clauses: &[Clause], form: Form) -> Vec<Vec<A>> {
        match form {
            Form::Ways(level, _) if !clauses.is_empty() => {
                let ways = self.ways(clauses).unwrap_or_else(|| self.modes(spot, clauses));
                ways.iter().map(|way| packed(spot.place.0, way, level)).collect()
            }
            _ => vec![self.in_form(spot, clauses, form)],
        }
    }

    /// The clauses that no other one gives.
    fn without_implied(&mut self, clauses: &[Clause]) -> Vec<Clause> {
        let mut kept = clauses.to_vec();
        for clause in clauses {
            let wanted = self.assertion(clause);
            let others: Vec<A> =
                kept.iter().filter(|c| *c != clause).map(|c| self.assertion(c)).collect();
            let gives = |other: &A| {
                self.prover.budget.renew();
                self.prover.implication(other, &wanted).is_some()
            };
            if others.iter().any(gives) {
                kept.retain(|c| c != clause);
            }
        }
        kept
    }

    /// Do two cases say the same wherever a point has both?
    fn are_alike(&self, found: &Clauses, one: u8, other: u8) -> bool {
        self.sample.places().all(|place| {
            let (one, other) = (Spot::of(place, one), Spot::of(place, other));
            let has = |spot| self.sample.cases.has(spot);
            !has(one) || !has(other) || found.get(&one) == found.get(&other)
        })
    }

    /// What is said, and that it is one of these cases: within a view, if there is one.
    fn with_guard(&self, place: Place, way: usize, (said, cases): &Group) -> A {
        let unsaid = |r: u8| !said.is_empty() && self.unsaid.contains(&(place, way, r));
        let (own, guard) = (place.0, self.guard_of(cases, &unsaid));
        if guard == truth() && !said.is_empty() {
            return fold_right(said, both).expect("something is said");
        }
        let view = |of: &dyn Fn(u8) -> bool| {
            said.iter().position(|a| a.as_sees().is_some_and(|(u, _)| of(u)))
        };
        let mut parts = said.to_vec();
        match view(&|u| u == own).or_else(|| view(&|_| true)) {
            Some(k) => {
                let u = parts[k].as_sees().map_or(own, |(u, _)| u);
                let one = packed(u, &[holds(&guard), parts[k].clone()], Level::Tests);
                parts.splice(k..=k, one);
            }
            None => parts.insert(0, sees(own, &all(&guard))),
        }
        fold_right(&parts, both).unwrap_or_else(|| holds(&guard))
    }

    /// The registers are as in one of these cases; what is the same in all of them once.
    fn guard_of(&self, cases: &[u8], unsaid: &dyn Fn(u8) -> bool) -> T {
        let said = |(r, _): &(u8, u8)| !unsaid(*r);
        let known = |case: &u8| self.sample.cases.known(*case).filter(said).collect();
        let known: Vec<Vec<(u8, u8)>> = cases.iter().map(known).collect();
        let same = |pair: &(u8, u8)| known.iter().all(|case| case.contains(pair));
        let test = |(r, v): &(u8, u8)| equal(&register(*r), &constant(*v));
        let mut parts: Vec<T> = known[0].iter().filter(|pair| same(pair)).map(test).collect();
        let rest = |case: &Vec<(u8, u8)>| {
            let tests: Vec<T> = case.iter().filter(|pair| !same(pair)).map(test).collect();
            fold_right(&tests, and)
        };
        let rests: Vec<T> = known.iter().filter_map(rest).collect();
        parts.extend(fold_right(&rests, or));
        fold_right(&parts, and).unwrap_or_else(truth)
    }
}
