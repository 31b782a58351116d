//! The options of an obligation: sets of clauses at the points before it, from which it may follow.

use crate::infer::cases::Spot;
use crate::infer::clauses::{clauses, negated, Clause, Literal};
use crate::infer::folded;
use crate::infer::ground::Ground;
use crate::infer::have::{Had, Key, Keys, Width};
use crate::infer::templates::r_ne;
use crate::search::prover::At;
use crate::search::support::expand;
use crate::terms::*;
use reference::checker::rules::keeps;
use reference::formula::atoms::Atoms;
use reference::image::Instruction;
use std::collections::{BTreeSet, HashSet};

/// What a clause at a point must stand.
#[derive(Debug, Clone, Copy, PartialEq, Eq, Hash, PartialOrd, Ord)]
pub enum Kind {
    /// It is so at the start.
    Start,
    /// From this point by its instruction.
    Step(Spot),
    /// From this point by its branch, taken or not.
    Branch(Spot, bool),
    /// Kept by another thread's instruction there.
    Kept(Spot),
}

impl Kind {
    /// The spot whose case is known before; none at the start.
    pub fn from(self) -> Option<Spot> {
        match self {
            Kind::Start => None,
            Kind::Step(from) | Kind::Branch(from, _) | Kind::Kept(from) => Some(from),
        }
    }
}

/// A clause of at most three literals may have one of them in two ways.
const TWICE: usize = 3;
/// More clauses in an option would pass the ten leaves of a line.
const MOST_CLAUSES: usize = 9;
/// More combinations than this are not looked at: of the literals' ways, and of the clauses' ways.
const MOST_COMBINED: usize = 400;
const MOST_HAD: usize = 60;

pub fn place_of(at: Spot) -> At {
    At { thread: at.place.0, point: at.place.1 }
}

impl Ground<'_> {
    /// The test of the branch at a spot, as it is known on this way.
    pub fn branch_test(&self, from: Spot, taken: bool) -> T {
        let instruction = self.program.instruction(from.place.0, from.place.1);
        let Some(Instruction::Branch { test, .. }) = instruction else {
            unreachable!("a branch stands there")
        };
        if taken {
            test.clone()
        } else {
            not(test)
        }
    }

    /// Every option of a clause's obligation, without a search.
    pub fn options(&mut self, key: &Key, kind: Kind, width: Width, had: &mut Had) -> Vec<Keys> {
        let clause = &self.wanted(key, kind);
        let (sets, places, mut all) = match kind {
            Kind::Start => return vec![vec![]],
            Kind::Branch(from, taken) => {
                (vec![self.before_branch(from, taken, clause)], vec![from], vec![])
            }
            Kind::Step(from) => (self.needed(place_of(from), clause), vec![from], vec![]),
            Kind::Kept(actor) if actor.case == key.0.case && self.stays(actor, clause) => {
                return vec![vec![]]
            }
            Kind::Kept(actor) => {
                let own = Spot::of(key.0.place, actor.case);
                let met = self.sample.meet(own, actor);
                let apart = if met { vec![] } else { self.exclusions(own, actor) };
                (self.needed(place_of(actor), clause), vec![own, actor], apart)
            }
        };
        for set in sets {
            let set = self.settled(places[0].case, &set);
            all.extend(self.combined(&set, &places, width, had));
        }
        let mut known = HashSet::new();
        for option in &mut all {
            option.sort();
            option.dedup();
            if matches!(kind, Kind::Kept(_)) {
                option.retain(|premise| premise != key);
            }
        }
        all.retain(|option| known.insert(option.clone()));
        self.looked += all.len() as u64;
        all
    }

    /// The clause, or the registers are not what they are in its case, where the case before does not tell them.
    pub fn wanted(&mut self, key: &Key, kind: Kind) -> Clause {
        let (spot, clause) = key;
        let cases = &self.sample.cases;
        let open: Vec<(u8, u8)> = match kind {
            _ if cases.is_whole() || spot.behind.is_some() => return clause.clone(),
            Kind::Start => cases.known(spot.case).collect(),
            Kind::Branch(..) => vec![],
            Kind::Step(from) | Kind::Kept(from) => {
                let c = self.program.instruction(from.place.0, from.place.1);
                let range = self.program.header.counts.range;
                c.and_then(|c| cases.open(c, from.case, spot.case, range)).unwrap_or_default()
            }
        };
        let more = open.iter().map(|(r, v)| r_ne(*r, *v));
        let mut all: Clause =
            more.map(|a| self.literal(&a)).chain(clause.iter().copied()).collect();
        all.sort();
        all.dedup();
        all
    }

    /// Clauses with what the registers are in a case; what is true there is left out.
    fn settled(&mut self, case: u8, set: &[Clause]) -> Vec<Clause> {
        if self.sample.cases.is_whole() {
            return set.to_vec();
        }
        let mut out: Vec<Clause> = Vec::new();
        for clause in set {
            let formulas = self.formulas(clause);
            let settled: Vec<A> = formulas.iter().map(|a| self.in_case(case, a)).collect();
            match self.clause(&settled) {
                Some(clause) if clause.is_empty() => out.push(vec![self.nothing()]),
                Some(clause) => out.push(clause),
                None => {}
            }
        }
        out
    }

    /// A formula with what the registers are in a case.
    pub fn in_case(&self, case: u8, a: &A) -> A {
        folded::assertion(&self.sample.cases.settled(case, a), self.program.header.counts.range)
    }

    /// The literal that is false.
    pub fn nothing(&mut self) -> Literal {
        self.literal(&holds(&falsehood()))
    }

    /// What a branch needs: its test is false, or the clause is so already.
    fn before_branch(&mut self, from: Spot, taken: bool, clause: &[Literal]) -> Vec<Clause> {
        let known = negated(&self.branch_test(from, taken));
        let whole = either(&expand(&known), &self.assertion(clause));
        self.numbered(&clauses(&whole))
    }

    /// Does the instruction leave the clause alone?
    fn stays(&self, actor: Spot, clause: &[Literal]) -> bool {
        let c = self.program.instruction(actor.place.0, actor.place.1).expect("an instruction");
        let (set, first) = (c.registers_set(), c.first_half());
        clause.iter().map(|n| self.formula(*n)).all(|a| {
            let kept = first.access().is_none() || keeps(&first, a.as_ref()) == Some(true);
            kept && !set.iter().any(|r| a.has_register(*r))
        })
    }

    /// Every way to have all clauses of a set.
    fn combined(
        &mut self,
        set: &[Clause],
        places: &[Spot],
        width: Width,
        had: &mut Had,
    ) -> Vec<Keys> {
        let mut all: Vec<Keys> = vec![vec![]];
        for clause in set {
            let slot = self.ways_to_have(clause, places, width, had);
            let mut next = Vec::new();
            for have in &all {
                next.extend(slot.iter().map(|way| [&have[..], &way[..]].concat()));
            }
            next.truncate(MOST_HAD);
            all = next;
        }
        all
    }

    /// Sets of clauses that give the clause over the instruction.
    pub fn needed(&mut self, at: At, clause: &[Literal]) -> Vec<Vec<Clause>> {
        let q = self.formulas(clause);
        let mut all = self.needed_as_it_is(at, &q);
        // The tests of the register that is read, as one.
        let result = self.program.instruction(at.thread, at.point).and_then(|c| c.result());
        let of_result = |a: &A| {
            let test = a.as_holds().filter(|e| result.is_some_and(|r| e.has_register(r)));
            test.cloned().ok_or(a.clone())
        };
        let apart: Vec<Result<T, A>> = q.iter().map(of_result).collect();
        let tests: Vec<T> = apart.iter().filter_map(|part| part.clone().ok()).collect();
        if tests.len() > 1 {
            let mut joined: Vec<A> = apart.into_iter().filter_map(Result::err).collect();
            joined.extend(fold_right(&tests, or).map(|e| holds(&e)));
            all.extend(self.needed_as_it_is(at, &joined));
        }
        let mut known = HashSet::new();
        all.retain(|set| known.insert(set.clone()));
        all
    }

    fn needed_as_it_is(&mut self, at: At, q: &[A]) -> Vec<Vec<Clause>> {
        let mut ways: Vec<Vec<Vec<Clause>>> = Vec::new();
        for a in q {
            let sets = self.before(at, a);
            ways.push(unique(sets.iter().map(|set| self.numbered(set)).collect::<Vec<_>>()));
        }
        if q.len() <= TWICE {
            let again: Vec<_> = ways.iter().filter(|way| way.len() > 1).cloned().collect();
            ways.extend(again);
        }
        let mut all = either_of(&ways);
        for chain in self.chains(at, q).into_iter().chain(self.landings(at, q)) {
            all.push(self.numbered(&[chain]));
        }
        all
    }
}

/// Each disjunct in one of its ways, or not at all: the clauses of the disjunction.
fn either_of(ways: &[Vec<Vec<Clause>>]) -> Vec<Vec<Clause>> {
    let mut all: Vec<Vec<Clause>> = vec![vec![]];
    for way in ways {
        let mut next = Vec::new();
        for done in &all {
            next.push(done.clone());
            for set in way {
                match done.is_empty() {
                    true => next.push(set.clone()),
                    false => next.extend(product(done, set)),
                }
            }
        }
        let mut known = HashSet::new();
        next.retain(|set| known.insert(set.clone()));
        next.truncate(MOST_COMBINED);
        all = next;
    }
    all.retain(|set| !set.is_empty());
    all
}

/// The clauses of one set or the other.
fn product(one: &[Clause], other: &[Clause]) -> Option<Vec<Clause>> {
    let mut joined: Vec<Clause> = Vec::new();
    for (left, right) in one.iter().flat_map(|l| other.iter().map(move |r| (l, r))) {
        let set: BTreeSet<Literal> = left.iter().chain(right).copied().collect();
        joined.push(set.into_iter().collect());
    }
    joined.sort();
    joined.dedup();
    (joined.len() <= MOST_CLAUSES).then_some(joined)
}
