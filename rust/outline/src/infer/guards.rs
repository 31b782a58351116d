//! Shorter cases: a register of a case need not be said where nothing rests on it.

use crate::infer::assemble::{with_parts, Assembled, Form, Given, Parts};
use crate::infer::ground::Ground;
use crate::infer::have::Key;
use crate::infer::sample::Place;
use crate::text::source::Source;
use std::collections::{BTreeMap, BTreeSet};

/// The effort that a look for shorter cases may take.
const EFFORT: u64 = 400_000;

/// A register in one of the ways that a point has.
type One = (Place, usize, u8);

/// Registers that are not said at points.
pub type Unsaid = BTreeSet<One>;

/// The clauses of an outline, written so that nothing is open.
pub struct Guards<'s> {
    pub source: &'s Source,
    pub keys: &'s BTreeSet<Key>,
    pub given: &'s Given,
    pub form: &'s dyn Fn(Place) -> Form,
}

impl Guards<'_> {
    /// The conjuncts with as few registers in the cases as are needed: all are left out, those of a point, those of one
    /// of its ways, or one.
    pub fn shortened(&self, ground: &mut Ground, assembled: &mut Assembled) -> Parts {
        let until = assembled.effort() + EFFORT;
        let all = ground.sayable();
        let mut wishes: Vec<Unsaid> = vec![all.clone()];
        let parts = |part: &dyn Fn(&One) -> One| {
            let mut parts: BTreeMap<One, Unsaid> = BTreeMap::new();
            all.iter().for_each(|one| {
                parts.entry(part(one)).or_default().insert(*one);
            });
            parts.into_values()
        };
        wishes.extend(parts(&|(place, _, _)| (*place, 0, 0)));
        wishes.extend(parts(&|(place, way, _)| (*place, *way, 0)));
        wishes.extend(parts(&|one| *one));
        for more in wishes {
            if assembled.effort() > until {
                break;
            }
            self.leave_out(ground, assembled, more);
        }
        ground.parts(self.keys, self.given, self.form)
    }

    /// Leaves these out, if nothing is open then.
    fn leave_out(&self, ground: &mut Ground, assembled: &mut Assembled, more: Unsaid) {
        let said = ground.unsaid.clone();
        if more.is_subset(&said) {
            return;
        }
        ground.unsaid.extend(more);
        let parts = ground.parts(self.keys, self.given, self.form);
        if !assembled.open(&with_parts(self.source, &parts), 1).is_empty() {
            ground.unsaid = said;
        }
    }
}

impl Ground<'_> {
    /// Every register of every way that a point may have.
    fn sayable(&self) -> Unsaid {
        let mut all = Unsaid::new();
        for place in self.sample.places() {
            let cases = self.sample.cases.at(place).count();
            let known: Vec<u8> = self.sample.cases.known(0).map(|(r, _)| r).collect();
            for (way, r) in (0..2 * cases).flat_map(|way| known.iter().map(move |r| (way, *r))) {
                all.insert((place, way, r));
            }
        }
        all
    }
}
