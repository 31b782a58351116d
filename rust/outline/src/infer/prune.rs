//! Leaves out clauses that the others can do without: every obligation keeps an option among the rest.

use crate::infer::claims::Noise;
use crate::infer::clauses::{size, Literal};
use crate::infer::fixpoint::{Fixpoint, Taste};
use crate::infer::have::Key;
use crate::infer::sample::Place;
use crate::terms::*;
use reference::checker::rules::table::MOST_LEAVES;
use reference::formula::Test;
use std::collections::{BTreeMap, BTreeSet};

/// So many orders are tried.
const ORDERS: u64 = 6;
/// The effort that pruning may take.
const EFFORT: u64 = 200_000;

/// Leaves beyond ten where two points meet in an obligation, then all leaves, then all clauses.
pub type Load = (usize, usize, usize);

/// For each obligation of each node the option chosen.
type Chosen = Vec<Vec<Option<usize>>>;

/// The options of each obligation of each node whose clauses are all alive: their numbers, and the clauses' nodes.
type Web = Vec<Vec<Vec<(usize, Vec<usize>)>>>;

impl Fixpoint<'_, '_> {
    /// Leaves out in several orders; the one with the fewest leaves wins. Every second order begins with all that is
    /// alive, so that other options can be chosen.
    pub fn prune(&mut self) -> Load {
        let until = self.ground.effort() + EFFORT;
        let alive: Vec<bool> = self.nodes.iter().map(|node| self.is_alive(node)).collect();
        let web = self.web(&alive);
        let saved = self.chosen();
        let (mut best, mut least) = (saved.clone(), self.load(&self.reached()));
        for order in 0..ORDERS {
            if self.ground.effort() > until {
                break;
            }
            self.restore(&saved);
            let begin = if order.is_multiple_of(2) { self.reached_nodes() } else { alive.clone() };
            self.prune_in_order(begin, &web, order, until);
            let load = self.load(&self.reached());
            if load < least {
                (best, least) = (self.chosen(), load);
            }
        }
        self.restore(&best);
        least
    }

    fn is_alive(&self, node: &crate::infer::fixpoint::Node) -> bool {
        !node.dead && node.obligations.iter().all(|o| o.chosen.is_some())
    }

    fn web(&self, alive: &[bool]) -> Web {
        let nodes = |premises: &[Key]| -> Option<Vec<usize>> {
            let node = |key| self.index.get(key).copied().filter(|n| alive[*n]);
            premises.iter().map(node).collect()
        };
        let of = |o: &crate::infer::fixpoint::Obligation| {
            let options = o.options.iter().flatten().enumerate();
            let open = options.filter(|(_, option)| option.serves != Some(false));
            open.filter_map(|(n, option)| Some((n, nodes(&option.premises)?))).collect()
        };
        self.nodes.iter().map(|node| node.obligations.iter().map(of).collect()).collect()
    }

    fn reached_nodes(&self) -> Vec<bool> {
        let mut reached = vec![false; self.nodes.len()];
        self.reached().iter().for_each(|key| reached[self.index[key]] = true);
        reached
    }

    fn prune_in_order(&mut self, mut rest: Vec<bool>, web: &Web, order: u64, until: u64) {
        let mut noise = Noise::of(order / 2);
        let weight = |key: &Key| -> usize {
            let sizes = key.1.iter().map(|n| size(self.ground.formula(*n))).sum::<usize>();
            10 * key.1.len() + sizes + 30 * self.foreign(key)
        };
        let mut ranked: Vec<(u64, usize)> = (0..rest.len())
            .filter(|n| rest[*n] && !self.roots.contains(&self.nodes[*n].key))
            .map(|n| (1000 - weight(&self.nodes[n].key).min(900) as u64 - noise.below(40), n))
            .collect();
        ranked.sort();
        for (_, n) in ranked {
            if !rest[n] {
                continue;
            }
            if self.ground.effort() > until {
                return;
            }
            rest[n] = false;
            match self.choose_within(&rest, n, web) {
                Some(changes) => {
                    for (m, k, o) in changes {
                        self.nodes[m].obligations[k].chosen = Some(o);
                    }
                    if order.is_multiple_of(2) {
                        rest = self.reached_nodes();
                    }
                }
                None => rest[n] = true,
            }
        }
    }

    /// An option for each obligation that rests on the clause left out, within the rest: what changes.
    fn choose_within(
        &mut self,
        rest: &[bool],
        out: usize,
        web: &Web,
    ) -> Option<Vec<(usize, usize, usize)>> {
        let mut changes = Vec::new();
        for n in (0..rest.len()).filter(|n| rest[*n]) {
            for (k, options) in web[n].iter().enumerate() {
                let chosen = self.nodes[n].obligations[k].chosen?;
                self.ground.looked += 1;
                let uses = |(o, nodes): &(usize, Vec<usize>)| *o == chosen && nodes.contains(&out);
                if !options.iter().any(uses) {
                    continue;
                }
                let within = options.iter().filter(|(_, nodes)| nodes.iter().all(|m| rest[*m]));
                let found = within.map(|(o, _)| *o).find(|o| self.serves(n, k, *o))?;
                changes.push((n, k, found));
            }
        }
        Some(changes)
    }

    /// Does the search certify this option?
    fn serves(&mut self, n: usize, k: usize, o: usize) -> bool {
        let (key, kind) = (self.nodes[n].key.clone(), self.nodes[n].obligations[k].kind);
        let Some(options) = &self.nodes[n].obligations[k].options else { return false };
        let premises = options[o].premises.clone();
        self.is_certified(&key, kind, &premises)
    }

    /// What other threads see, if it is to be said at their own points.
    pub fn foreign(&self, (spot, clause): &Key) -> usize {
        let view = |n: &Literal| self.ground.formula(*n).as_sees().map(|(u, _)| u);
        let foreign = clause.iter().filter_map(view).filter(|u| *u != spot.place.0).count();
        match self.taste {
            Taste::Own | Taste::Settled => foreign,
            Taste::Weak | Taste::Leaves => 0,
        }
    }

    fn chosen(&self) -> Chosen {
        let of = |node: &crate::infer::fixpoint::Node| {
            node.obligations.iter().map(|o| o.chosen).collect::<Vec<_>>()
        };
        self.nodes.iter().map(of).collect()
    }

    fn restore(&mut self, chosen: &Chosen) {
        for (node, list) in self.nodes.iter_mut().zip(chosen) {
            node.obligations.iter_mut().zip(list).for_each(|(o, chosen)| o.chosen = *chosen);
        }
    }

    /// The leaves of these clauses, counted.
    pub fn load(&self, keys: &BTreeSet<Key>) -> Load {
        let mut leaves: BTreeMap<Place, BTreeSet<Literal>> = BTreeMap::new();
        for (place, clause) in keys {
            leaves.entry(place.place).or_default().extend(clause.iter().map(|n| self.leaf(*n)));
        }
        let mut over = 0;
        for (p, a) in &leaves {
            for (q, b) in &leaves {
                let acts =
                    self.ground.program.instruction(q.0, q.1).is_some_and(|c| !c.is_branch());
                if p.0 != q.0 && acts {
                    over += a.union(b).count().saturating_sub(MOST_LEAVES);
                }
            }
        }
        let foreign: usize = keys.iter().map(|key| self.foreign(key)).sum();
        (over, foreign + leaves.values().map(BTreeSet::len).sum::<usize>(), keys.len())
    }

    /// The leaf of a literal: a test and its negation are one.
    pub fn leaf(&self, n: Literal) -> Literal {
        let inner = self.ground.formula(n).as_holds().and_then(|e| match &**e {
            Test::Not(inner) => self.ground.known(&holds(inner)),
            _ => None,
        });
        inner.unwrap_or(n)
    }
}
