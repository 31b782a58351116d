//! Points that never meet: clauses at both that exclude each other.

use crate::infer::cases::Spot;
use crate::infer::clauses::{Clause, Literal};
use crate::infer::fixpoint::{Fixpoint, Stuck};
use crate::infer::ground::Ground;
use crate::infer::have::{Key, Keys};
use crate::search::prover::Prover;
use crate::terms::*;
use reference::formula::Assertion;
use reference::image::Meeting;
use std::collections::HashSet;

/// Steps of one look for a choice of literals.
const MOST_CHOICES: usize = 20_000;
/// So many steps of such a look, and so many clauses looked at in a step, are worth a try of the search.
const STEPS_OF_A_TRY: usize = 4;
const CLAUSES_OF_A_STEP: usize = 50;
/// So often clauses are chosen for claims in one run.
const MOST_ROUNDS: usize = 400;

/// Pairs of literals that cannot both be true.
type Clashes = HashSet<(Literal, Literal)>;

/// Two spots that never meet, and the claim that says so, if there is one.
#[derive(Debug, Clone, Copy, PartialEq, Eq)]
pub struct Apart {
    pub spots: [Spot; 2],
    pub claim: Option<usize>,
}

/// Spots that never meet with the clauses chosen for each pair.
pub struct Claims {
    pairs: Vec<Apart>,
    cores: Vec<Option<Keys>>,
    rounds: usize,
    /// Which of the orders clauses are left out in.
    pub order: u64,
}

impl Claims {
    pub fn of(pairs: Vec<Apart>, order: u64) -> Claims {
        Claims { cores: vec![None; pairs.len()], pairs, rounds: 0, order }
    }

    /// New clauses for each claim whose clauses are dead or not chosen yet.
    pub fn demand(&mut self, fixpoint: &mut Fixpoint) -> Result<Keys, Stuck> {
        let mut demanded = Vec::new();
        for (k, apart) in self.pairs.iter().enumerate() {
            let chosen = self.cores[k].as_ref();
            if chosen.is_some_and(|core| !core.iter().any(|key| fixpoint.is_dead(key))) {
                continue;
            }
            self.rounds += 1;
            let core = if self.rounds > MOST_ROUNDS {
                None
            } else {
                fixpoint.core(apart.spots, self.order)
            };
            let core = core.ok_or(Stuck::Apart(*apart))?;
            demanded.extend(core.iter().cloned());
            self.cores[k] = Some(core);
        }
        Ok(demanded)
    }

    /// The clauses chosen.
    pub fn chosen(self) -> Keys {
        self.cores.into_iter().flatten().flatten().collect()
    }
}

impl Ground<'_> {
    /// The spots of each claim, case by case.
    pub fn apart(&self, meetings: &[Meeting]) -> Vec<Apart> {
        let mut pairs = Vec::new();
        for (k, m) in meetings.iter().enumerate() {
            let (one, other) = ((m.thread, m.point), (m.other_thread, m.other_point));
            for spot in self.sample.cases.at(one) {
                let there = Spot::of(other, spot.case);
                if self.sample.cases.has(there) {
                    pairs.push(Apart { spots: [spot, there], claim: Some(k) });
                }
            }
        }
        pairs
    }

    /// Clauses at two points that exclude each other: a unit and its negation, or two units and the negation of both.
    pub fn exclusions(&mut self, a: Spot, b: Spot) -> Vec<Keys> {
        let mut ids: Vec<(Literal, Literal)> = Vec::new();
        for (p, q) in self.units() {
            let (p, q) = (self.literal(&p), self.literal(&q));
            ids.extend([(p, q), (q, p)]);
        }
        let mut out = Vec::new();
        for (here, there) in [(a, b), (b, a)] {
            let mut units = ids.clone();
            units.retain(|(p, _)| self.true_at(here, &[*p]));
            for (n, (p, np)) in units.iter().enumerate() {
                if self.true_at(there, &[*np]) {
                    out.push(vec![(here, vec![*p]), (there, vec![*np])]);
                    continue;
                }
                for (q, nq) in &units[n + 1..] {
                    let mut clause = vec![*np, *nq];
                    clause.sort();
                    if self.true_at(there, &clause) && !self.true_at(there, &[*nq]) {
                        out.push(vec![(here, vec![*p]), (here, vec![*q]), (there, clause)]);
                    }
                }
            }
        }
        out
    }

    fn clashes(&mut self, literals: &[Literal]) -> Clashes {
        let mut found = HashSet::new();
        self.looked += (literals.len() * literals.len() / CLAUSES_OF_A_STEP) as u64;
        for (k, a) in literals.iter().enumerate() {
            for b in &literals[k + 1..] {
                let (p, q) = (self.formula(*a).clone(), self.formula(*b).clone());
                if excludes(&mut self.prover, &p, &q) {
                    found.extend([(*a, *b), (*b, *a)]);
                }
            }
        }
        found
    }
}

impl Fixpoint<'_, '_> {
    /// Clauses at both points, not dead, that exclude each other: as few as leaving out one by one gives.
    fn core(&mut self, spots: [Spot; 2], order: u64) -> Option<Keys> {
        let mut literals: Vec<Literal> = Vec::new();
        for (p, q) in self.ground.units() {
            literals.extend([self.ground.literal(&p), self.ground.literal(&q)]);
        }
        let mut all: Keys = Vec::new();
        for place in spots {
            all.extend(self.candidates(place, &literals));
        }
        let clashes = self.ground.clashes(&literals);
        let mut steps = 0;
        let core = least_contradiction(self.in_order(all, order), &clashes, &mut steps);
        self.ground.looked += (steps / STEPS_OF_A_TRY) as u64;
        let mut core = core?;
        core.sort();
        self.ground.excludes_all(&core).then_some(core)
    }

    /// True clauses of one or two units that are not dead.
    fn candidates(&mut self, place: Spot, literals: &[Literal]) -> Keys {
        let (mut found, mut open): (Keys, Clause) = (Vec::new(), Vec::new());
        for &n in literals {
            let key = (place, vec![n]);
            let is_true = self.ground.true_at(place, &[n]);
            if is_true && !self.is_dead(&key) {
                found.push(key);
            } else {
                // A true unit that is dead may still serve in a wider clause.
                open.push(n);
            }
        }
        for (k, a) in open.iter().enumerate() {
            for b in &open[k + 1..] {
                let mut clause = vec![*a, *b];
                clause.sort();
                let formulas = self.ground.formulas(&clause);
                let says = self.ground.clause(&formulas).is_some();
                let key = (place, clause);
                if says && !self.is_dead(&key) && self.ground.true_at(place, &key.1) {
                    found.push(key);
                }
            }
        }
        found
    }

    /// The costliest first, since they are left out first; in each order with other noise.
    fn in_order(&self, all: Keys, order: u64) -> Keys {
        let mut noise = Noise::of(order);
        let cost = |key: &Key, noise: u64| self.cost(key) as u64 + self.fleeting(key) + noise;
        let mut ranked: Vec<(std::cmp::Reverse<u64>, Key)> = all
            .into_iter()
            .map(|key| (std::cmp::Reverse(cost(&key, noise.below(30))), key))
            .collect();
        ranked.sort();
        ranked.into_iter().map(|(_, key)| key).collect()
    }

    /// A register that a load sets is worth less than one that only the thread's own progress sets.
    fn fleeting(&self, (_, clause): &Key) -> u64 {
        let read = |r: &u8| {
            let all = self.ground.program.threads.iter().flatten();
            all.filter_map(|c| c.load()).any(|load| load.register == *r)
        };
        let of = |n: &Literal| {
            registers_of(self.ground.formula(*n).as_ref()).iter().filter(|r| read(r)).count()
        };
        8 * clause.iter().map(of).sum::<usize>() as u64
    }
}

/// Numbers without a pattern, the same on every machine; order 0 has none.
pub struct Noise(u64);

impl Noise {
    pub fn of(order: u64) -> Noise {
        Noise(order.wrapping_mul(0x9E37_79B9_7F4A_7C15))
    }

    pub fn below(&mut self, most: u64) -> u64 {
        self.0 ^= self.0 << 13;
        self.0 ^= self.0 >> 7;
        self.0 ^= self.0 << 17;
        self.0 % most
    }
}

/// Can these two literals not both be true, as far as tests say?
fn excludes(prover: &mut Prover, a: &A, b: &A) -> bool {
    let (e, f) = match (&**a, &**b) {
        (Assertion::Holds(e), Assertion::Holds(f)) => (e, f),
        (Assertion::Sees(u, i), Assertion::Sees(v, j)) if u != v => {
            return prover.last_views_exclude(i, j);
        }
        (Assertion::Sees(_, i), Assertion::Sees(_, j)) => match (i.as_all(), j.as_all()) {
            (Some(e), Some(f)) => (e, f),
            _ => return false,
        },
        _ => return false,
    };
    prover.by_rows(&and(e, f), &falsehood())
}

fn is_contradiction(keys: &[Key], clashes: &Clashes, steps: &mut usize) -> bool {
    let clauses: Vec<&Clause> = keys.iter().map(|(_, clause)| clause).collect();
    let mut left = MOST_CHOICES;
    let found = !is_satisfiable(&clauses, clashes, &mut Vec::new(), &mut left);
    *steps += (MOST_CHOICES - left) * (1 + clauses.len() / CLAUSES_OF_A_STEP);
    found
}

/// The clauses that are left if one after the other is left out, as long as the rest is a contradiction: in parts, which
/// leaves the same.
fn least_contradiction(mut rest: Keys, clashes: &Clashes, steps: &mut usize) -> Option<Keys> {
    if !is_contradiction(&rest, clashes, steps) {
        return None;
    }
    let mut parts: Vec<(usize, usize)> = vec![(0, rest.len())];
    while let Some((behind, length)) = parts.pop() {
        // What is behind the part in order has not been looked at yet.
        let end = rest.len() - behind;
        let fewer = [&rest[..end - length], &rest[end..]].concat();
        if is_contradiction(&fewer, clashes, steps) {
            rest = fewer;
        } else if length > 1 {
            let half = length / 2;
            parts.push((behind, length - half));
            parts.push((behind + length - half, half));
        }
    }
    Some(rest)
}

/// Is there a choice of a literal from each clause without a clash? If the choices run out, there may be.
fn is_satisfiable(
    clauses: &[&Clause],
    clashes: &Clashes,
    chosen: &mut Vec<Literal>,
    left: &mut usize,
) -> bool {
    if *left == 0 {
        return true;
    }
    *left -= 1;
    // The clause with the fewest choices first.
    let mut best: Option<Clause> = None;
    for clause in clauses.iter().filter(|c| !c.iter().any(|n| chosen.contains(n))) {
        let free = |n: &Literal| !chosen.iter().any(|m| clashes.contains(&(*n, *m)));
        let open: Clause = clause.iter().copied().filter(free).collect();
        if open.is_empty() {
            return false;
        }
        if best.as_ref().is_none_or(|best| open.len() < best.len()) {
            best = Some(open);
        }
    }
    let Some(open) = best else { return true };
    open.into_iter().any(|n| {
        chosen.push(n);
        let found = is_satisfiable(clauses, clashes, chosen, left);
        chosen.pop();
        found
    })
}

#[cfg(test)]
mod tests {
    use super::*;

    #[test]
    fn a_contradiction_is_seen_through_cases() {
        let clashes: Clashes = [(0, 1), (1, 0), (2, 3), (3, 2)].into();
        let at = |clause: &[usize]| (Spot::of((1, 0), 0), clause.to_vec());
        let mut steps = 0;
        assert!(is_contradiction(&[at(&[0, 2]), at(&[1]), at(&[3])], &clashes, &mut steps));
        assert!(!is_contradiction(&[at(&[0, 2]), at(&[1])], &clashes, &mut steps));
        assert!(steps > 0);
    }

    #[test]
    fn the_first_clauses_in_order_are_left_out() {
        let clashes: Clashes = [(0, 1), (1, 0), (2, 3), (3, 2)].into();
        let at = |n: usize| (Spot::of((1, 0), 0), vec![n]);
        let all: Keys = [0, 4, 1, 2, 5, 3, 6].map(at).into();
        let least = least_contradiction(all, &clashes, &mut 0);
        assert_eq!(least, Some([2, 3].map(at).into()));
        assert_eq!(least_contradiction([0, 2].map(at).into(), &clashes, &mut 0), None);
    }

    #[test]
    fn the_first_order_has_no_noise_and_the_others_have() {
        let drawn = |order| {
            let mut noise = Noise::of(order);
            (0..8).map(|_| noise.below(30)).collect::<Vec<u64>>()
        };
        assert_eq!(drawn(0), [0; 8]);
        assert!(drawn(1) != drawn(2) && drawn(1) == drawn(1));
    }
}
