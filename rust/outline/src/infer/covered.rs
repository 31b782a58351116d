//! What is asked for: the clauses of what is given, and that the cases of points are all that there are.

use crate::infer::assemble::Given;
use crate::infer::cases::Spot;
use crate::infer::claims::Apart;
use crate::infer::clauses::clauses;
use crate::infer::ground::Ground;
use crate::infer::have::{Key, Keys};
use crate::infer::sample::Place;
use crate::infer::templates::r_eq;
use crate::infer::wish::Wish;
use crate::terms::*;
use reference::image::{Instruction, Meeting};

impl Ground<'_> {
    /// The clauses of what is given, in each case of its point, and what leads from case to case.
    pub fn goals(&mut self, given: &Given) -> Keys {
        let mut goals: Keys = Vec::new();
        for (place, assertion) in given {
            for spot in self.sample.cases.at(*place).collect::<Vec<Spot>>() {
                for literals in clauses(&self.in_case(spot.case, assertion)) {
                    let Some(clause) = self.clause(&literals) else { continue };
                    let nothing = vec![self.nothing()];
                    goals.push((spot, if clause.is_empty() { nothing } else { clause }));
                }
            }
        }
        goals.extend(self.onward());
        goals
    }

    /// From each case of a point every way leads into a case of the next one.
    fn onward(&mut self) -> Keys {
        if self.sample.cases.is_whole() {
            return vec![];
        }
        let places: Vec<_> = self.sample.places().collect();
        let spots: Vec<Spot> =
            places.into_iter().flat_map(|place| self.sample.cases.at(place)).collect();
        spots.into_iter().flat_map(|spot| self.onward_from(spot)).collect()
    }

    fn onward_from(&mut self, spot: Spot) -> Keys {
        let (t, p) = spot.place;
        let behind = |taken| Spot { behind: Some(taken), ..spot };
        match self.program.instruction(t, p) {
            None => vec![],
            Some(Instruction::Branch { target, .. }) => {
                let ends = [(true, *target), (false, p + 1)];
                let open = ends.iter().filter(|(_, to)| {
                    let next = Spot::of((t, *to), spot.case);
                    !self.silent.contains(&next.place) && !self.sample.cases.has(next)
                });
                let open: Vec<bool> = open.map(|(taken, _)| *taken).collect();
                let nothing = vec![self.nothing()];
                open.into_iter().map(|taken| (behind(taken), nothing.clone())).collect()
            }
            Some(_) if self.is_unheard(spot) => vec![],
            Some(_) => self.results(spot).into_iter().map(|c| (behind(false), c)).collect(),
        }
    }

    /// Does no point that says something hear of a step from there?
    fn is_unheard(&self, spot: Spot) -> bool {
        let (t, p) = spot.place;
        let others = self.sample.places().filter(|(u, _)| *u != t);
        let mut meeting = others.filter(|place| self.sample.cases.has(Spot::of(*place, spot.case)));
        self.silent.contains(&(t, p + 1)) && meeting.all(|place| self.silent.contains(&place))
    }

    /// The last points of threads of which nothing is wished: they say nothing.
    pub fn note_silent(&mut self, wish: &Wish) {
        let asked = |place: &Place| {
            let claimed = |m: &Meeting| {
                [(m.thread, m.point), (m.other_thread, m.other_point)].contains(place)
            };
            wish.given.contains_key(place) || wish.claims.iter().any(claimed)
        };
        let last = |(t, p): &Place| self.program.instruction(*t, *p).is_none();
        self.silent = self.sample.places().filter(|p| last(p) && !asked(p)).collect();
    }

    /// The values that the registers set by a step may have behind it.
    fn results(&mut self, spot: Spot) -> Vec<Vec<usize>> {
        let (t, p) = spot.place;
        let Some(c) = self.program.instruction(t, p) else { return vec![] };
        let range = self.program.header.counts.range;
        let cases = &self.sample.cases;
        let next = cases.behind(self.program, spot);
        let open: Vec<(u8, u8)> =
            next.iter().filter_map(|k| cases.open(c, spot.case, *k, range)).flatten().collect();
        let registers = unique(open.iter().map(|(r, _)| *r));
        let mut out = Vec::new();
        for r in registers {
            let values = open.iter().filter(|(other, _)| *other == r).map(|(_, v)| *v);
            let among: Vec<A> = unique(values).into_iter().map(|v| r_eq(r, v)).collect();
            out.extend(self.clause(&among));
        }
        out
    }

    /// Spots that never meet, one of which would lead the other into a case that its point does not have.
    pub fn unmet(&self) -> Vec<Apart> {
        let cases = &self.sample.cases;
        if cases.is_whole() {
            return vec![];
        }
        let spots: Vec<Spot> = self.sample.places().flat_map(|place| cases.at(place)).collect();
        let mut pairs = Vec::new();
        for own in spots.iter().filter(|own| !self.silent.contains(&own.place)) {
            for actor in spots.iter().filter(|s| s.case == own.case && s.place.0 != own.place.0) {
                let acts = |c: &Instruction| !c.is_branch();
                let acts = self.program.instruction(actor.place.0, actor.place.1).is_some_and(acts);
                let leads = |case: &u8| !cases.has(Spot::of(own.place, *case));
                let away = acts && cases.behind(self.program, *actor).iter().any(leads);
                if away && !self.sample.meet(*own, *actor) {
                    pairs.push(Apart { spots: [*own, *actor], claim: None });
                }
            }
        }
        pairs
    }
}

/// Is the clause one that an outline says, and not only what leads from case to case?
pub fn is_said(key: &Key) -> bool {
    key.0.behind.is_none()
}
