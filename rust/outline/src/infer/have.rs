//! Ways to have a clause at a point: itself, a part of it, something stronger, or by the cases of a register.

use crate::infer::cases::Spot;
use crate::infer::clauses::{Clause, Literal};
use crate::infer::ground::Ground;
use crate::infer::templates::{r_eq, r_ne, x_eq};
use crate::terms::*;
use reference::formula::{Assertion, Value};
use std::collections::{BTreeSet, HashMap, HashSet};
use std::rc::Rc;

/// A clause at a spot.
pub type Key = (Spot, Clause);
/// Clauses at spots that are wanted together.
pub type Keys = Vec<Key>;

/// Which clauses may be demanded: too narrow finds nothing, too wide drowns.
#[derive(Debug, Clone, Copy, PartialEq, Eq)]
pub struct Width {
    /// The most views in a clause.
    pub views: usize,
    /// The most tests in a clause.
    pub tests: usize,
    /// Are two views told apart by a register?
    pub apart: bool,
}

/// No clause has more literals.
const MOST_LITERALS: usize = 6;
/// A register with more values than this is not told by its values.
const MOST_VALUES: usize = 4;

/// Ways to have clauses that were worked out already.
#[derive(Default)]
pub struct Had(HashMap<(Clause, Vec<Spot>), Rc<Vec<Keys>>>);

fn sorted(mut clause: Clause) -> Clause {
    clause.sort();
    clause.dedup();
    clause
}

impl Ground<'_> {
    /// Ways to have a clause at one of the places.
    pub fn ways_to_have(
        &mut self,
        clause: &[Literal],
        places: &[Spot],
        width: Width,
        had: &mut Had,
    ) -> Rc<Vec<Keys>> {
        let key = (clause.to_vec(), places.to_vec());
        if let Some(known) = had.0.get(&key) {
            return known.clone();
        }
        let mut found = self.find_ways_to_have(clause, places, width);
        let mut known = HashSet::new();
        found.retain(|way| known.insert(way.clone()));
        let found = Rc::new(found);
        had.0.insert(key, found.clone());
        found
    }

    fn too_wide(&self, clause: &[Literal], width: Width) -> bool {
        let views = clause.iter().filter(|n| self.formula(**n).as_sees().is_some()).count();
        views > width.views || clause.len() - views > width.tests || clause.len() > MOST_LITERALS
    }

    fn find_ways_to_have(&mut self, n: &[Literal], places: &[Spot], width: Width) -> Vec<Keys> {
        let literals = self.formulas(n);
        let Some(mut whole) = self.clause(&literals) else { return vec![vec![]] };
        if whole.is_empty() {
            // Only where no state is.
            whole.push(self.nothing());
        }
        let mut out = if width.apart { self.told_apart(&whole, places, width) } else { vec![] };
        let wide = self.too_wide(&whole, width);
        for &place in places {
            let parts = self.least_true(place, &whole).into_iter();
            let fitting = parts.filter(|part| !wide || !self.too_wide(part, width));
            out.extend(fitting.map(|part| vec![(place, part)]));
        }
        if wide {
            return out;
        }
        self.by_stronger(&whole, places, &mut out);
        for &place in places {
            self.by_register_in_view(place, &whole, &mut out);
            self.by_settled_names(place, &whole, &mut out);
        }
        if let [a, b] = *places {
            self.where_other_knows(&whole, (b, a), &mut out);
            self.where_other_knows(&whole, (a, b), &mut out);
        }
        out
    }

    /// Two views told apart by a register: if r = v then one, else the other.
    fn told_apart(&mut self, whole: &[Literal], places: &[Spot], width: Width) -> Vec<Keys> {
        let is_view = |n: &Literal| self.formula(*n).as_sees().is_some();
        let (views, rest): (Clause, Clause) = whole.iter().partition(|n| is_view(n));
        let [one, other] = views[..] else { return vec![] };
        let mut out = Vec::new();
        for &place in places {
            // Only if it is a choice: neither view is true alone.
            if self.true_at(place, &[one]) || self.true_at(place, &[other]) {
                continue;
            }
            for r in 1..=self.sample.registers() {
                for v in self.sample.register_at(place, r) {
                    let (yes, no) = (self.literal(&r_eq(r, v)), self.literal(&r_ne(r, v)));
                    for (one, other) in [(one, other), (other, one)] {
                        let c = sorted([&rest[..], &[no, one]].concat());
                        let d = sorted([&rest[..], &[yes, other]].concat());
                        let narrow = !self.too_wide(&c, width) && !self.too_wide(&d, width);
                        if narrow && self.true_at(place, &c) && self.true_at(place, &d) {
                            out.push(vec![(place, c), (place, d)]);
                        }
                    }
                }
            }
        }
        out
    }

    /// Something stronger in the place of one literal.
    fn by_stronger(&mut self, whole: &[Literal], places: &[Spot], out: &mut Vec<Keys>) {
        for (k, m) in whole.iter().enumerate() {
            for strong in self.stronger(&self.formula(*m).clone()) {
                let mut literals = self.formulas(whole);
                literals[k] = strong;
                let Some(clause) = self.clause(&literals) else { continue };
                for &place in places {
                    out.extend(
                        self.least_true(place, &clause).into_iter().map(|c| vec![(place, c)]),
                    );
                }
            }
        }
    }

    /// A register in a view, by its values.
    fn by_register_in_view(&mut self, place: Spot, whole: &[Literal], out: &mut Vec<Keys>) {
        for m in whole {
            let a = self.formula(*m).clone();
            let Some((u, j)) = a.as_sees() else { continue };
            let rest: Clause = whole.iter().copied().filter(|k| k != m).collect();
            for r in registers_of(j.as_ref()) {
                out.extend(self.by_values_of(place, r, (u, j), &rest));
            }
        }
    }

    fn by_values_of(
        &mut self,
        place: Spot,
        r: u8,
        (u, j): (u8, &I),
        rest: &[Literal],
    ) -> Option<Keys> {
        let values = self.sample.register_at(place, r);
        if values.len() > MOST_VALUES {
            return None;
        }
        let among: Vec<A> = values.iter().map(|v| r_eq(r, *v)).collect();
        let mut keys: Keys = self.clause(&among).map(|c| (place, c)).into_iter().collect();
        for v in &values {
            let seen = sees(u, &replaced(j, Value::Register(r), &constant(*v)));
            let literals = [self.formulas(rest), vec![r_ne(r, *v), seen]].concat();
            if let Some(clause) = self.clause(&literals) {
                keys.push((place, self.least_true(place, &clause).into_iter().next()?));
            }
        }
        Some(keys)
    }

    /// A test of several names, by the one value that each has where the rest of the clause is false.
    fn by_settled_names(&mut self, place: Spot, whole: &[Literal], out: &mut Vec<Keys>) {
        for m in whole {
            let a = self.formula(*m).clone();
            let rest: Clause = whole.iter().copied().filter(|k| k != m).collect();
            out.extend(self.settled_names(place, &a, &rest));
        }
    }

    fn settled_names(&mut self, place: Spot, a: &A, rest: &[Literal]) -> Option<Keys> {
        let (u, registers, words) = match &**a {
            Assertion::Holds(e) => (place.place.0, registers_of(e.as_ref()), BTreeSet::new()),
            Assertion::Sees(u, j) => {
                let e = j.as_all()?;
                (*u, registers_of(e.as_ref()), words_of(e.as_ref()))
            }
            _ => return None,
        };
        if registers.len() + words.len() < 2 {
            return None;
        }
        let open = self.false_at(place, rest);
        let mut units: Vec<A> = Vec::new();
        for r in registers {
            let values = self.sample.register_in(&open, r);
            units.push(r_eq(r, *values.first().filter(|_| values.len() == 1)?));
        }
        for x in words {
            let seen = |v: u8| sees(u, &x_eq(x, v));
            let values = self.sample.word_values(x);
            let found = values.into_iter().find(|v| {
                let literal = self.literal(&seen(*v));
                open.is_within(self.states_of(literal))
            });
            units.push(seen(found?));
        }
        let mut keys = Vec::new();
        for unit in units {
            let clause = self.clause(&[self.formulas(rest), vec![unit]].concat())?;
            keys.push((place, self.least_true(place, &clause).into_iter().next()?));
        }
        Some(keys)
    }

    /// One place says what a register holds, the other has the clause in that case.
    fn where_other_knows(
        &mut self,
        whole: &[Literal],
        (known, other): (Spot, Spot),
        out: &mut Vec<Keys>,
    ) {
        for r in 1..=self.sample.registers() {
            let values = self.sample.register_at(known, r);
            if values.len() != 1 || self.sample.register_at(other, r) == values {
                continue;
            }
            let v = *values.first().expect("one value");
            let (yes, no) = (self.literal(&r_eq(r, v)), self.literal(&r_ne(r, v)));
            if !self.true_at(known, &[yes]) {
                continue;
            }
            let clause = sorted([whole, &[no]].concat());
            let parts = self.least_true(other, &clause).into_iter();
            let cases = parts.filter(|part| part.contains(&no));
            out.extend(cases.map(|part| vec![(known, vec![yes]), (other, part)]));
        }
    }
}
