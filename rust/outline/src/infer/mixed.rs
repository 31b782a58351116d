//! A form for each point: where one form for all leaves little open, points of what is open are written in other forms.

use crate::build::Goal;
use crate::infer::assemble::{with_parts, Assembled, Form, Given, Parts};
use crate::infer::ground::Ground;
use crate::infer::have::Key;
use crate::infer::sample::{places, Place};
use crate::text::source::Source;
use std::collections::{BTreeMap, BTreeSet};

/// The effort that a look for forms may take.
const EFFORT: u64 = 400_000;

/// The clauses of an outline and what is open in it.
pub struct Mixed<'m> {
    pub source: &'m Source,
    pub keys: &'m BTreeSet<Key>,
    pub given: &'m Given,
}

/// The form of each point.
type Forms = BTreeMap<Place, Form>;

impl Mixed<'_> {
    /// Conjuncts of which nothing stays open, from one form for all points on; else none.
    pub fn parts(
        &self,
        ground: &mut Ground,
        assembled: &mut Assembled,
        (form, open): (Form, Vec<Goal>),
        goes_on: &dyn Fn(u64) -> bool,
    ) -> Option<Parts> {
        let program = self.source.program();
        let mut forms: Forms = places(&program).map(|place| (place, form)).collect();
        let (mut open, until) = (open, assembled.effort() + EFFORT);
        while !open.is_empty() {
            let spent = |assembled: &Assembled| {
                assembled.effort() > until || !goes_on(ground.effort() + assembled.effort())
            };
            if spent(assembled) {
                return None;
            }
            let (better, less) = self.better(ground, assembled, &forms, &open, until)?;
            (forms, open) = (better, less);
        }
        Some(ground.parts(self.keys, self.given, &|place| forms[&place]))
    }

    /// One point in another form, so that less is open.
    fn better(
        &self,
        ground: &mut Ground,
        assembled: &mut Assembled,
        forms: &Forms,
        open: &[Goal],
        until: u64,
    ) -> Option<(Forms, Vec<Goal>)> {
        let involved: Vec<Place> = forms
            .keys()
            .copied()
            .filter(|place| open.iter().any(|goal| goal.is_at(*place)))
            .collect();
        for place in involved {
            let now = ground.parts(self.keys, self.given, &|p| forms[&p]);
            for form in ground.forms().iter().copied() {
                let mut other = forms.clone();
                other.insert(place, form);
                let parts = ground.parts(self.keys, self.given, &|p| other[&p]);
                if parts == now || assembled.effort() > until {
                    continue;
                }
                let left = assembled.open(&with_parts(self.source, &parts), open.len());
                if left.len() < open.len() {
                    return Some((other, left));
                }
            }
        }
        None
    }
}
