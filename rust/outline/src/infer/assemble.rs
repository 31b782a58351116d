//! From clauses at points to assertions: in several forms, of which the search takes the first that it can certify.

use crate::build::{prove, Goal};
use crate::infer::cases::Spot;
use crate::infer::clauses::{clauses, Clause, Literal};
use crate::infer::covered::is_said;
use crate::infer::ground::Ground;
use crate::infer::have::Key;
use crate::infer::packed::{merged, packed, Level};
use crate::infer::sample::Place;
use crate::search::budget::Budget;
use crate::search::prover::Prover;
use crate::terms::*;
use crate::text::source::Source;
use reference::formula::nesting::Nesting;
use reference::image::{Program, Statement};
use std::collections::{BTreeMap, BTreeSet, HashMap};

/// The conjuncts of each point.
pub type Parts = BTreeMap<Place, Vec<A>>;

/// Tries for one obligation of an assembled outline, and for one of a few that are left.
const TRIES: u64 = 10_000;
const LONGER: u64 = 50_000;

/// How the clauses of a point are written.
#[derive(Debug, Clone, Copy, PartialEq, Eq)]
pub enum Form {
    Clauses,
    Packed(Level),
    Modes(Option<Level>),
    /// What is so in all modes apart from them.
    Factored(Level),
    /// Views with the tests that go with them, but for views that others stand beside.
    Merged,
    /// A literal that stands in several clauses once, with the rest of these beside it.
    Shared(Level),
    /// In each case the ways to have its clauses.
    Ways(Level, Merging),
}

/// Which cases of a point are written as one where they say the same.
#[derive(Debug, Clone, Copy, PartialEq, Eq)]
pub enum Merging {
    /// All of them.
    All,
    /// Those that say the same at all other points, too.
    Alike,
}

const FORMS: [Form; 12] = [
    Form::Clauses,
    Form::Packed(Level::Views),
    Form::Merged,
    Form::Packed(Level::Tests),
    Form::Packed(Level::Guarded),
    Form::Modes(None),
    Form::Modes(Some(Level::Views)),
    Form::Modes(Some(Level::Tests)),
    Form::Factored(Level::Tests),
    Form::Shared(Level::Views),
    Form::Shared(Level::Tests),
    Form::Shared(Level::Guarded),
];

/// How the clauses of points with several cases are written.
pub const CASE_FORMS: [Form; 6] = [
    Form::Packed(Level::Views),
    Form::Packed(Level::Tests),
    Form::Ways(Level::Views, Merging::Alike),
    Form::Ways(Level::Tests, Merging::Alike),
    Form::Ways(Level::Views, Merging::All),
    Form::Ways(Level::Tests, Merging::All),
];

/// What is asked for at points, and stays as it is written.
pub type Given = BTreeMap<Place, A>;

impl Ground<'_> {
    /// The forms that are tried.
    pub fn forms(&self) -> &'static [Form] {
        if self.sample.cases.is_whole() {
            &FORMS
        } else {
            &CASE_FORMS
        }
    }

    /// The conjuncts of each point in its form: what is given first, letter by letter.
    pub fn parts(
        &mut self,
        keys: &BTreeSet<Key>,
        given: &Given,
        form: &dyn Fn(Place) -> Form,
    ) -> Parts {
        let mut found: BTreeMap<Spot, Vec<Clause>> = BTreeMap::new();
        for (spot, clause) in keys.iter().filter(|key| is_said(key)) {
            found.entry(*spot).or_default().push(clause.clone());
        }
        let mut parts = Parts::new();
        for place in self.sample.places().collect::<Vec<Place>>() {
            let mut own: Vec<A> = given.get(&place).cloned().into_iter().collect();
            if !self.fixed.contains_key(&place) {
                let known = own.iter().flat_map(clauses).collect::<Vec<_>>();
                let known = self.numbered(&known);
                own.extend(self.in_cases(place, &found, &known, form(place)));
            }
            parts.insert(place, own);
        }
        parts
    }

    pub fn in_form(&mut self, place: Spot, clauses: &[Clause], form: Form) -> Vec<A> {
        if clauses.is_empty() {
            return vec![];
        }
        let list: Vec<A> = clauses.iter().map(|clause| self.assertion(clause)).collect();
        match form {
            Form::Clauses => list,
            Form::Packed(level) | Form::Ways(level, _) => packed(place.place.0, &list, level),
            Form::Merged => packed(place.place.0, &merged(place.place.0, &list), Level::Views),
            Form::Factored(level) => {
                let (units, rest): (Vec<Clause>, Vec<Clause>) =
                    clauses.iter().cloned().partition(|clause| clause.len() == 1);
                let mut out = self.in_form(place, &units, Form::Packed(Level::Views));
                out.extend(self.in_form(place, &rest, Form::Modes(Some(level))));
                out
            }
            Form::Shared(level) => self.shared(place, clauses, level),
            Form::Modes(level) => {
                let modes = self.modes(place, clauses);
                let written = |mode: &Vec<A>| match level {
                    Some(level) => packed(place.place.0, mode, level),
                    None => mode.clone(),
                };
                let whole: Vec<A> =
                    modes.iter().filter_map(|mode| fold_right(&written(mode), both)).collect();
                fold_right(&whole, either).into_iter().collect()
            }
        }
    }
}

impl Ground<'_> {
    /// The view that most clauses have beside other literals, once, and beside it the rest of these clauses.
    fn shared(&mut self, place: Spot, clauses: &[Clause], level: Level) -> Vec<A> {
        let together =
            |n: &Literal| clauses.iter().filter(|c| c.len() > 1 && c.contains(n)).count();
        let is_view = |n: &Literal| self.formula(*n).as_sees().is_some();
        let views: BTreeSet<Literal> = clauses.iter().flatten().copied().filter(is_view).collect();
        let most = views.into_iter().max_by_key(|n| (together(n), std::cmp::Reverse(*n)));
        let Some(view) = most.filter(|n| together(n) > 1) else {
            return self.in_form(place, clauses, Form::Packed(level));
        };
        let with = |c: &&Clause| c.len() > 1 && c.contains(&view);
        let beside = |c: &Clause| c.iter().copied().filter(|n| *n != view).collect::<Clause>();
        let rests: Vec<Clause> = clauses.iter().filter(with).map(beside).collect();
        let others: Vec<Clause> = clauses.iter().filter(|c| !with(c)).cloned().collect();
        let rest = self.in_form(place, &rests, Form::Packed(level));
        let rest = fold_right(&rest, both).expect("some clause has the view");
        let mut out = vec![either(&self.formula(view).clone(), &rest)];
        out.extend(self.in_form(place, &others, Form::Shared(level)));
        out
    }
}

/// The source with these conjuncts at its points.
pub fn with_parts(source: &Source, parts: &Parts) -> Source {
    let mut source = source.clone();
    for (t, points) in (1..).zip(&mut source.points) {
        for (p, point) in (0..).zip(points) {
            let list = parts.get(&(t, p)).cloned().unwrap_or_default();
            point.assertion = fold_right(&list, both).unwrap_or_else(|| holds(&truth()));
            point.number = None;
            point.hole = false;
        }
    }
    source
}

/// Do the assertions fit into records?
pub fn fits(source: &Source) -> bool {
    source.points.iter().flatten().all(|point| point.assertion.fits_record())
}

/// What the search has said of whole obligations.
pub struct Assembled<'a> {
    prover: Prover<'a>,
    known: HashMap<Statement, bool>,
}

impl<'a> Assembled<'a> {
    pub fn of(program: &'a Program, source: &Source) -> Assembled<'a> {
        let mut prover = Prover::new(program, source.names.clone());
        prover.budget = Budget::of(LONGER);
        prover.go_by(source.rules);
        Assembled { prover, known: HashMap::new() }
    }

    pub fn effort(&self) -> u64 {
        self.prover.budget.made().0
    }

    /// The obligations and claims of an outline for which no line is found; not more than so many are looked for.
    pub fn open(&mut self, source: &Source, most: usize) -> Vec<Goal> {
        if !fits(source) {
            return Goal::all(source).into_iter().take(most).collect();
        }
        let program = source.program();
        let mut open = Vec::new();
        for goal in Goal::all(source) {
            if !self.is_met(&goal.wanted(&program)) {
                open.push(goal);
                if open.len() >= most {
                    break;
                }
            }
        }
        open
    }

    /// Those of these goals for which no line is found with more tries.
    pub fn still_open(&mut self, source: &Source, goals: Vec<Goal>) -> Vec<Goal> {
        let program = source.program();
        let mut open = Vec::new();
        for goal in goals {
            let wanted = goal.wanted(&program);
            let found = self.is_found(&wanted, LONGER);
            self.known.insert(wanted, found);
            if !found {
                open.push(goal);
            }
        }
        open
    }

    fn is_met(&mut self, wanted: &Statement) -> bool {
        if let Some(known) = self.known.get(wanted) {
            return *known;
        }
        let found = self.is_found(wanted, TRIES);
        self.known.insert(wanted.clone(), found);
        found
    }

    fn is_found(&mut self, wanted: &Statement, tries: u64) -> bool {
        self.prover.tried.clear();
        self.prover.budget.renew_within(tries);
        prove(&mut self.prover, wanted).is_some()
    }
}
