//! One width after another, until one finds an outline that is accepted or the tries are spent.

use crate::build::{build_with, Built, Goal};
use crate::further::accepted_bytes;
use crate::infer::assemble::{fits, with_parts, Assembled, Form, Parts};
use crate::infer::cases::{lasting, Spot};
use crate::infer::claims::Claims;
use crate::infer::covered::is_said;
use crate::infer::fixpoint::{Certified, Fixpoint, Stuck, Taste};
use crate::infer::ground::Ground;
use crate::infer::guards::Guards;
use crate::infer::have::{Key, Width};
use crate::infer::minimise::{minimised, plainer};
use crate::infer::mixed::Mixed;
use crate::infer::options::Kind;
use crate::infer::sample::Place;
use crate::infer::wish::{Breach, Wish};
use crate::search::kept::Kept;
use crate::terms::*;
use crate::text::report;
use crate::text::source::Source;
use reference::explore;
use std::collections::BTreeSet;

/// The tries of one inference, if nothing else is asked.
pub const TRIES: u64 = 1_200_000;
/// With more cases at a point its leaves would pass ten.
const MOST_CASES: usize = 8;
/// A form in which so many obligations are open is not looked at further.
const MOST_OPEN: usize = 10;
/// So few that are open get more tries.
const FEW_OPEN: usize = 4;
/// The tries of the final build for one obligation.
const BUILD_TRIES: u64 = 50_000;
/// One run of the portfolio: the clauses that it may demand, its taste, and the order in which clauses for claims are
/// left out.
#[derive(Debug, Clone, Copy, PartialEq, Eq)]
struct Run {
    width: Width,
    taste: Taste,
    /// The most clauses.
    nodes: usize,
    order: u64,
    /// Are points told apart by the registers that no load sets?
    by_cases: bool,
}

const NARROW: Width = Width { views: 1, tests: 2, apart: false };
const NARROW_APART: Width = Width { views: 1, tests: 2, apart: true };
const MIDDLE: Width = Width { views: 2, tests: 2, apart: false };
const MORE_TESTS: Width = Width { views: 2, tests: 3, apart: false };
const MORE_TESTS_APART: Width = Width { views: 2, tests: 3, apart: true };
const WIDE: Width = Width { views: 3, tests: 3, apart: false };

const FEW: usize = 150;
const SOME: usize = 400;
const MANY: usize = 1500;

/// The runs in their order: what finds most, and fast, comes first. Other orders are for claims alone.
const RUNS: [(Width, Taste, usize, u64, bool); 22] = [
    (MIDDLE, Taste::Own, FEW, 0, false),
    (NARROW, Taste::Settled, SOME, 0, true),
    (MORE_TESTS, Taste::Own, SOME, 0, false),
    (MIDDLE, Taste::Leaves, FEW, 0, false),
    (MIDDLE, Taste::Weak, FEW, 0, false),
    (MORE_TESTS, Taste::Leaves, SOME, 0, false),
    (MORE_TESTS, Taste::Weak, SOME, 0, false),
    (NARROW_APART, Taste::Leaves, SOME, 0, false),
    (NARROW, Taste::Leaves, SOME, 0, false),
    (MIDDLE, Taste::Settled, SOME, 0, true),
    (MORE_TESTS, Taste::Weak, SOME, 1, false),
    (MORE_TESTS, Taste::Own, SOME, 1, false),
    (WIDE, Taste::Own, SOME, 0, false),
    (WIDE, Taste::Leaves, SOME, 0, false),
    (WIDE, Taste::Weak, SOME, 0, false),
    (MORE_TESTS_APART, Taste::Own, SOME, 0, false),
    (MORE_TESTS_APART, Taste::Weak, SOME, 0, false),
    (MORE_TESTS, Taste::Weak, MANY, 0, false),
    (WIDE, Taste::Weak, MANY, 0, false),
    (MORE_TESTS, Taste::Own, MANY, 0, false),
    (MORE_TESTS, Taste::Weak, MANY, 2, false),
    (WIDE, Taste::Own, MANY, 1, false),
];

/// What came of it.
pub enum Answer {
    Found(Box<Found>),
    False(explore::Run, Breach),
    NotFound(Box<NotFound>),
}

/// An outline that the checker accepts.
pub struct Found {
    pub source: Source,
    pub built: Built,
    pub bytes: Vec<u8>,
    pub tried: Tried,
}

/// How much was tried.
#[derive(Debug, Clone, Default)]
pub struct Tried {
    pub tries: u64,
    pub runs: usize,
    pub states: usize,
    pub all_states: bool,
}

/// Where it ended.
#[derive(Debug, Clone)]
pub struct NotFound {
    pub tried: Tried,
    /// Was it stopped by somebody?
    pub stopped: bool,
    /// What the last run without an inductive set ended on, in words.
    pub stuck: Vec<String>,
    /// The clauses of the last set that rest on each other, but were certified in no outline.
    pub unwritten: Option<usize>,
    /// The best outline that was assembled, with what stays open in it.
    pub best: Option<(Source, Vec<Goal>)>,
}

/// Is told the tries made and all that there are; says whether to go on.
pub type Watch<'w> = &'w dyn Fn(u64, u64) -> bool;

/// Looks for assertions at all points, so that the wish is shown.
pub fn infer(source: &Source, wish: &Wish, most: u64, watch: Watch) -> Answer {
    let program = source.program();
    if let Some((run, breach)) = wish.broken(&program) {
        return Answer::False(run, breach);
    }
    let mut ground = Ground::of(&program, source.names.clone());
    if wish.as_they_are {
        ground.fixed = wish.given.clone();
    }
    ground.prover.go_by(source.rules);
    ground.note_silent(wish);
    let assembled = Assembled::of(&program, source);
    let mut search = Inference {
        source,
        wish,
        ground,
        assembled,
        most,
        watch,
        runs: 0,
        best: None,
        unwritten: None,
        stuck: vec![],
        assembled_before: BTreeSet::new(),
    };
    let found = search.run();
    let tried = search.tried();
    match found {
        Some((source, built, bytes)) => {
            Answer::Found(Box::new(Found { source, built, bytes, tried }))
        }
        None => Answer::NotFound(Box::new(search.ended(tried))),
    }
}

struct Inference<'i> {
    source: &'i Source,
    wish: &'i Wish,
    ground: Ground<'i>,
    assembled: Assembled<'i>,
    most: u64,
    watch: Watch<'i>,
    runs: usize,
    best: Option<(Source, Vec<Goal>)>,
    unwritten: Option<usize>,
    stuck: Vec<String>,
    /// The sets of clauses that were assembled already.
    assembled_before: BTreeSet<BTreeSet<Key>>,
}

type Accepted = (Source, Built, Vec<u8>);

impl Inference<'_> {
    fn effort(&self) -> u64 {
        self.ground.effort() + self.assembled.effort()
    }

    fn tried(&self) -> Tried {
        Tried {
            tries: self.effort(),
            runs: self.runs,
            states: self.ground.sample.states.len(),
            all_states: self.ground.sample.all,
        }
    }

    /// Where it ended without an outline.
    fn ended(self, tried: Tried) -> NotFound {
        let stopped = !(self.watch)(self.effort(), self.most);
        let Inference { stuck, unwritten, best, .. } = self;
        NotFound { tried, stopped, stuck, unwritten, best }
    }

    fn goes_on(&self) -> bool {
        self.effort() < self.most && (self.watch)(self.effort(), self.most)
    }

    fn run(&mut self) -> Option<Accepted> {
        let mut certified = [Certified::default(), Certified::default()];
        let mut ended: Vec<(Width, Taste, u64, bool)> = Vec::new();
        for (width, taste, nodes, order, by_cases) in RUNS {
            let run = Run { width, taste, nodes, order, by_cases };
            let known = ended.contains(&(width, taste, order, by_cases));
            if known || order > 0 && self.wish.claims.is_empty() || !self.split(by_cases) {
                continue;
            }
            if !self.goes_on() {
                return None;
            }
            self.runs += 1;
            let keys = match self.inductive(&run, &mut certified[usize::from(by_cases)]) {
                Ok(keys) => keys,
                Err(limited) => {
                    // Without a limit the same comes of it again.
                    ended.extend((!limited).then_some((width, taste, order, by_cases)));
                    continue;
                }
            };
            ended.push((width, taste, order, by_cases));
            if self.assembled_before.insert(keys.clone()) {
                if let Some(found) = self.assemble(&keys) {
                    return Some(found);
                }
                self.unwritten = Some(keys.iter().filter(|key| is_said(key)).count());
            }
        }
        None
    }

    /// Tells points apart, or not; false if there is nothing to tell them apart by, if a point has no state or too many
    /// cases.
    fn split(&mut self, by_cases: bool) -> bool {
        let registers = if by_cases { lasting(self.ground.program) } else { vec![] };
        self.ground.split(&registers);
        let (sample, some) = (&self.ground.sample, !registers.is_empty());
        let places: Vec<Place> = sample.places().collect();
        !by_cases || some && sample.cases.are_few(&places, MOST_CASES)
    }

    /// Clauses that are inductive and give the wish; else whether a limit ended it.
    fn inductive(&mut self, run: &Run, certified: &mut Certified) -> Result<BTreeSet<Key>, bool> {
        let (spent, watch, most) = (self.effort(), self.watch, self.most);
        let goals = &self.ground.goals(&self.wish.given);
        let apart = [self.ground.apart(&self.wish.claims), self.ground.unmet()].concat();
        let mut fixpoint = Fixpoint::new(&mut self.ground, certified, run.width);
        (fixpoint.most_nodes, fixpoint.taste) = (run.nodes, run.taste);
        fixpoint.until = fixpoint.ground.effort() + most.saturating_sub(spent);
        let mut claims = Claims::of(apart, run.order);
        let goes_on = || watch(spent, most);
        let done = fixpoint.run(goals, &goes_on, &mut |fixpoint| claims.demand(fixpoint));
        if let Err(stuck) = done {
            if stuck != Stuck::Stopped {
                self.stuck = fixpoint.told(&stuck, self.source);
            }
            return Err(matches!(stuck, Stuck::Nodes | Stuck::Stopped));
        }
        fixpoint.roots.extend(claims.chosen());
        fixpoint.prune();
        Ok(fixpoint.reached())
    }

    /// The first form that is certified, minimised, built and judged; else a form for each point.
    fn assemble(&mut self, keys: &BTreeSet<Key>) -> Option<Accepted> {
        let mut least: Option<(Form, Vec<Goal>)> = None;
        for form in self.ground.forms().iter().copied() {
            if !self.goes_on() {
                return None;
            }
            let parts = self.ground.parts(keys, &self.wish.given, &|_| form);
            let most = least.as_ref().map_or(MOST_OPEN, |(_, open)| open.len());
            let mut open = self.open_in(&parts, most);
            if open.len() <= FEW_OPEN && !self.ground.sample.cases.is_whole() {
                open = self.assembled.still_open(&with_parts(self.source, &parts), open);
            }
            if open.is_empty() {
                let parts = self.with_short_cases(keys, &|_| form, parts);
                if let Some(found) = self.minimised(parts) {
                    return Some(found);
                }
            } else if open.len() < most {
                least = Some((form, open));
            }
        }
        let mixed = Mixed { source: self.source, keys, given: &self.wish.given };
        let (watch, most) = (self.watch, self.most);
        let goes_on = |effort: u64| effort < most && watch(effort, most);
        let parts = mixed.parts(&mut self.ground, &mut self.assembled, least?, &goes_on)?;
        self.minimised(parts)
    }

    /// The same with as few registers in its cases as are needed.
    fn with_short_cases(
        &mut self,
        keys: &BTreeSet<Key>,
        form: &dyn Fn(Place) -> Form,
        parts: Parts,
    ) -> Parts {
        if self.ground.sample.cases.is_whole() {
            return parts;
        }
        self.ground.unsaid.clear();
        let guards = Guards { source: self.source, keys, given: &self.wish.given, form };
        let parts = guards.shortened(&mut self.ground, &mut self.assembled);
        self.ground.unsaid.clear();
        parts
    }

    fn minimised(&mut self, parts: Parts) -> Option<Accepted> {
        let given = &self.wish.given;
        let parts = minimised(&mut self.assembled, self.source, parts, given);
        let plain =
            plainer(&mut self.assembled, self.source, parts.clone(), given, &self.ground.sample);
        self.accepted(&plain).or_else(|| self.accepted(&parts))
    }

    /// What is open in this outline, not more than so many. The one with the least open is kept, for the message.
    fn open_in(&mut self, parts: &Parts, most: usize) -> Vec<Goal> {
        let source = with_parts(self.source, parts);
        let open = self.assembled.open(&source, most);
        let better = self.best.as_ref().is_none_or(|(_, best)| open.len() < best.len());
        if better && fits(&source) {
            self.best = Some((source, open.clone()));
        }
        open
    }

    /// The image of the outline, if the checker accepts it.
    fn accepted(&mut self, parts: &Parts) -> Option<Accepted> {
        let source = with_parts(self.source, parts);
        let built = build_with(&source, Kept::Needed, BUILD_TRIES, &|_, _| true).ok()?;
        let bytes = accepted_bytes(&built)?;
        Some((source, built, bytes))
    }
}

impl Fixpoint<'_, '_> {
    /// Why there is no inductive set, in words.
    fn told(&self, stuck: &Stuck, source: &Source) -> Vec<String> {
        match stuck {
            Stuck::Dead(key, kind) => {
                let goal = &self.ground.prover.names.assertion(&self.ground.assertion(&key.1));
                let at = self.spot_told(source, key.0);
                let on = self.kind_told(source, *kind);
                vec![format!("the goal {goal}"), format!("  at {at}"), format!("  ended on {on}")]
            }
            Stuck::Apart(apart) => {
                let at = |spot: Spot| self.spot_told(source, spot);
                let [one, other] = apart.spots;
                let pair = || format!("{} and {} never meet", at(one), at(other));
                let claimed =
                    |k: usize| report::claim(&source.names, Some(source), &source.meetings()[k]);
                let claim = apart.claim.map_or_else(pair, claimed);
                vec![format!("{claim}: no clauses at the two points that exclude each other last")]
            }
            Stuck::Nodes => {
                let (all, dead) = (self.nodes.len(), self.died.len());
                vec![format!("more than {all} clauses were asked for, {dead} of them not kept")]
            }
            Stuck::Stopped => vec![],
        }
    }

    fn spot_told(&self, source: &Source, spot: Spot) -> String {
        let (t, p) = spot.place;
        let point = report::point(&source.names, Some(source), t, p);
        match self.ground.guard(spot.case) {
            Some(guard) => format!("{point}, where {}", source.names.assertion(&holds(&guard))),
            None => point,
        }
    }

    fn kind_told(&self, source: &Source, kind: Kind) -> String {
        let at = |spot| self.spot_told(source, spot);
        match kind {
            Kind::Start => "the start".into(),
            Kind::Step(from) => format!("the step from {}", at(from)),
            Kind::Branch(from, true) => format!("the branch taken at {}", at(from)),
            Kind::Branch(from, false) => format!("the branch not taken at {}", at(from)),
            Kind::Kept(actor) => format!("what {} does", at(actor)),
        }
    }
}
