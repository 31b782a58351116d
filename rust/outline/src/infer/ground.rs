//! What the inference stands on: the program, sampled states, numbered literals, and the search that certifies.

use crate::infer::bits::Bits;
use crate::infer::cases::Spot;
use crate::infer::clauses::{negated, plain, Clause, Literal};
use crate::infer::guards::Unsaid;
use crate::infer::sample::{Place, Sample};
use crate::search::budget::Budget;
use crate::search::prover::Prover;
use crate::terms::*;
use crate::text::print::Names;
use reference::explore::truth::is_true;
use reference::image::Program;
use std::collections::{BTreeMap, BTreeSet, HashMap};

/// Tries of the search for one certification.
const TRIES: u64 = 3_000;

/// Numbered literals with their truth in each sampled state.
pub struct Ground<'a> {
    pub program: &'a Program,
    pub prover: Prover<'a>,
    pub sample: Sample,
    /// Points whose assertions are given and stay as they are: only what they give is to be had there.
    pub fixed: BTreeMap<Place, A>,
    /// Registers that are not said in the cases of points.
    pub unsaid: Unsaid,
    /// Points that say nothing.
    pub silent: BTreeSet<Place>,
    literals: Vec<A>,
    numbers: HashMap<A, Literal>,
    truth: Vec<Option<Bits>>,
    given: HashMap<(Spot, Clause), bool>,
    /// Literals evaluated and options proposed: work beside the search's own tries.
    pub looked: u64,
}

impl<'a> Ground<'a> {
    pub fn of(program: &'a Program, names: Names) -> Ground<'a> {
        let mut prover = Prover::new(program, names);
        prover.budget = Budget::of(TRIES);
        Ground {
            program,
            prover,
            sample: Sample::of(program),
            fixed: BTreeMap::new(),
            unsaid: Unsaid::new(),
            silent: BTreeSet::new(),
            literals: Vec::new(),
            numbers: HashMap::new(),
            truth: Vec::new(),
            given: HashMap::new(),
            looked: 0,
        }
    }

    /// Points are told apart by these registers from now on.
    pub fn split(&mut self, registers: &[u8]) {
        self.sample.split(registers);
        self.unsaid.clear();
        self.given.clear();
    }

    /// What the registers are in a case, as a test.
    pub fn guard(&self, case: u8) -> Option<T> {
        let known = self.sample.cases.known(case);
        let tests: Vec<T> = known.map(|(r, v)| equal(&register(r), &constant(v))).collect();
        fold_right(&tests, and)
    }

    /// How much was done so far: the same on every machine.
    pub fn effort(&self) -> u64 {
        self.prover.budget.made().0 + self.looked
    }

    /// The number of a literal; a view of registers alone is a test.
    pub fn literal(&mut self, a: &A) -> Literal {
        let a = plain(a).map_or_else(|| a.clone(), |e| holds(&e));
        if let Some(known) = self.numbers.get(&a) {
            return *known;
        }
        let next = self.literals.len();
        self.literals.push(a.clone());
        self.truth.push(None);
        self.numbers.insert(a, next);
        next
    }

    /// The number of a formula that is a literal already.
    pub fn known(&self, a: &A) -> Option<Literal> {
        self.numbers.get(a).copied()
    }

    /// The formula of a literal.
    pub fn formula(&self, literal: Literal) -> &A {
        &self.literals[literal]
    }

    pub fn formulas(&self, clause: &[Literal]) -> Vec<A> {
        clause.iter().map(|n| self.literals[*n].clone()).collect()
    }

    /// The clause as an assertion, tests first.
    pub fn assertion(&self, clause: &[Literal]) -> A {
        let mut parts = self.formulas(clause);
        parts.sort_by_key(|a| a.as_sees().is_some());
        fold_right(&parts, either).unwrap_or_else(|| holds(&falsehood()))
    }

    /// The clause of these literals without false ones; none if it is true whatever is.
    pub fn clause(&mut self, literals: &[A]) -> Option<Clause> {
        let mut out = BTreeSet::new();
        for a in literals {
            if let Some(e) = plain(a) {
                if self.prover.by_rows(&truth(), &e) {
                    return None;
                }
                if self.prover.by_rows(&e, &falsehood()) {
                    continue;
                }
            }
            out.insert(self.literal(a));
        }
        let opposite = |n: &Literal| {
            let other = holds(&negated(self.literals[*n].as_holds()?));
            self.numbers.get(&other).filter(|m| out.contains(m))
        };
        match out.iter().any(|n| opposite(n).is_some()) {
            true => None,
            false => Some(out.into_iter().collect()),
        }
    }

    /// Clauses as they are, numbered, each once.
    pub fn numbered(&mut self, clauses: &[Vec<A>]) -> Vec<Clause> {
        let mut out: Vec<Clause> = Vec::new();
        for clause in clauses {
            let set: BTreeSet<Literal> = clause.iter().map(|a| self.literal(a)).collect();
            out.push(set.into_iter().collect());
        }
        out.sort();
        out.dedup();
        out
    }

    /// The states in which a literal is true.
    pub fn states_of(&mut self, literal: Literal) -> &Bits {
        if self.truth[literal].is_none() {
            let mut bits = Bits::none(self.sample.states.len());
            for (n, state) in self.sample.states.iter().enumerate() {
                if is_true(&self.literals[literal], state, &self.program.header) {
                    bits.add(n);
                }
            }
            self.looked += self.sample.states.len() as u64 / 8;
            self.truth[literal] = Some(bits);
        }
        self.truth[literal].as_ref().expect("just evaluated")
    }

    /// The states there in which the clause is false.
    pub fn false_at(&mut self, place: Spot, clause: &[Literal]) -> Bits {
        let mut left = self.sample.there(place).clone();
        for literal in clause {
            left.remove(self.states_of(*literal));
        }
        left
    }

    /// May the clause be demanded at the place? It is true in every sampled state, and where the assertion is fixed it
    /// follows from that.
    pub fn true_at(&mut self, place: Spot, clause: &[Literal]) -> bool {
        self.false_at(place, clause).is_empty() && self.is_given(place, clause)
    }

    /// Does a fixed assertion, if there is one, give the clause?
    fn is_given(&mut self, place: Spot, clause: &[Literal]) -> bool {
        let Some(assertion) = self.fixed.get(&place.place).cloned() else { return true };
        let key = (place, clause.to_vec());
        if let Some(known) = self.given.get(&key) {
            return *known;
        }
        let wanted = self.assertion(clause);
        let assertion = match self.guard(place.case) {
            Some(guard) => both(&holds(&guard), &assertion),
            None => assertion,
        };
        self.prover.budget.renew();
        let found = self.prover.implication(&assertion, &wanted).is_some();
        self.given.insert(key, found);
        found
    }

    /// The least parts of a clause that are true at a place, and the clause itself, which asks for the least.
    pub fn least_true(&mut self, place: Spot, clause: &[Literal]) -> Vec<Clause> {
        let mut sets: Vec<u32> = (1..1u32 << clause.len()).collect();
        sets.sort_by_key(|set| set.count_ones());
        let mut least: Vec<u32> = Vec::new();
        let mut found: Vec<Clause> = Vec::new();
        for set in sets {
            if least.iter().any(|l| l & set == *l) {
                continue;
            }
            let chosen = clause.iter().enumerate().filter(|(k, _)| set >> k & 1 == 1);
            let part: Clause = chosen.map(|(_, n)| *n).collect();
            if self.true_at(place, &part) {
                least.push(set);
                found.push(part);
            }
        }
        let whole = clause.to_vec();
        if !found.is_empty() && !found.contains(&whole) {
            found.push(whole);
        }
        found
    }

    /// Does the first interval lie within the second?
    pub fn includes(&mut self, i: &I, j: &I) -> bool {
        self.prover.budget.renew();
        self.prover.include(i, j).is_some()
    }
}
