//! Breadth-first search over all runs, so that a breaking run found is a shortest one.

use super::store::{Added, Store, ROOM};
use super::truth::is_true;
use crate::image::{Meeting, Program};
use crate::machine::{take, State, Step};

/// How far to search.
#[derive(Clone, Copy, Debug, PartialEq, Eq)]
pub struct Bounds {
    /// The most steps of a run.
    pub steps: usize,
    /// The most writes in a word's row.
    pub writes: usize,
    /// The most start states.
    pub starts: usize,
    /// The most states.
    pub states: usize,
}

impl Bounds {
    /// How far to search if nothing else is asked.
    pub const DEFAULT: Bounds = Bounds { steps: 24, writes: 6, starts: 4096, states: 2_000_000 };
}

/// What a search has found.
#[derive(Clone, Debug, PartialEq, Eq)]
pub struct Found {
    pub states: usize,
    pub cut: Cut,
    pub outcome: Outcome,
}

/// Which bounds kept some run from being tried.
#[derive(Clone, Copy, Debug, Default, PartialEq, Eq)]
pub struct Cut {
    pub steps: bool,
    pub writes: bool,
    pub starts: bool,
    pub states: bool,
    /// No bound that was asked for: the room for states is used up.
    pub room: bool,
}

impl Cut {
    pub fn any(&self) -> bool {
        self.steps || self.writes || self.starts || self.states || self.room
    }
}

impl std::fmt::Display for Cut {
    fn fmt(&self, out: &mut std::fmt::Formatter) -> std::fmt::Result {
        let bounds = [
            (self.steps, "--steps"),
            (self.writes, "--writes"),
            (self.starts, "--starts"),
            (self.states, "--states"),
            (self.room, "the room for states"),
        ];
        let names = bounds.iter().filter(|(cut, _)| *cut).map(|(_, name)| *name);
        write!(out, "cut by {}", names.collect::<Vec<&str>>().join(", "))
    }
}

#[derive(Clone, Debug, PartialEq, Eq)]
pub enum Outcome {
    /// Every assertion and claim is true in every state; `all` if no bound cut the search.
    Holds {
        all: bool,
    },
    Breaks(Break),
}

/// A run that ends where an assertion or a claim is false.
#[derive(Clone, Debug, PartialEq, Eq)]
pub struct Break {
    pub start: State,
    pub run: Vec<Step>,
    pub fault: Fault,
}

/// What is false in a state.
#[derive(Clone, Copy, Debug, PartialEq, Eq)]
pub enum Fault {
    /// This thread's assertion at its point.
    Assertion { thread: u8 },
    /// The claim that there is no such meeting.
    Claim(Meeting),
}

/// How a state was reached.
struct Node {
    depth: u32,
    /// The state before, itself for a start state, and the step from it.
    before: u32,
    thread: u8,
    position: u8,
}

pub(super) struct Search<'a> {
    program: &'a Program,
    pub(super) bounds: Bounds,
    /// All states reached, in the order of the steps that lead to them.
    states: Store,
    nodes: Vec<Node>,
    /// Which bounds kept some state from being reached.
    pub(super) cut: Cut,
    /// Every run of up to so many steps is there, as far as the other bounds let it.
    pub(super) steps: usize,
    /// Whether a state was left out for want of room.
    is_full: bool,
}

/// Evaluates each thread's assertion at its point, and each claim, in every state reached.
pub fn explore(program: &Program, claims: &[Meeting], bounds: Bounds) -> Found {
    let mut search = Search::new(program, bounds);
    let outcome = match search.first(&|state| false_at(program, claims, state)) {
        Some((index, fault)) => {
            let (start, run) = search.run_to(index);
            Outcome::Breaks(Break { start, run, fault })
        }
        None => Outcome::Holds { all: !search.cut.any() },
    };
    Found { states: search.len(), cut: search.cut, outcome }
}

/// Every state reached, whatever the outline says.
pub fn reachable(program: &Program, bounds: Bounds) -> Vec<State> {
    let mut search = Search::new(program, bounds);
    search.exhaust();
    (0..search.len()).map(|index| search.state(index)).collect()
}

/// The first thread whose assertion at its point is false in a state, else the first claim that is.
pub(super) fn false_at(program: &Program, claims: &[Meeting], state: &State) -> Option<Fault> {
    let mut places = (1..).zip(state.points.iter().copied());
    let broken = |&(thread, point): &(u8, u8)| {
        !is_true(program.assertion(thread, point), state, &program.header)
    };
    let assertion = places.find(broken).map(|(thread, _)| Fault::Assertion { thread });
    let met = || claims.iter().find(|meeting| state.has_meeting(meeting));
    assertion.or_else(|| met().copied().map(Fault::Claim))
}

impl<'a> Search<'a> {
    /// A search that has reached the start states only.
    pub(super) fn new(program: &'a Program, bounds: Bounds) -> Search<'a> {
        let starts = State::has_more_starts(&program.header, bounds.starts);
        let cut = Cut { starts, ..Cut::default() };
        Search::from(program, bounds, State::starts(&program.header, bounds.starts), cut)
    }

    /// A search that has reached these states only.
    pub(super) fn from(
        program: &'a Program,
        bounds: Bounds,
        reached: impl IntoIterator<Item = State>,
        cut: Cut,
    ) -> Search<'a> {
        let (states, nodes, steps) = (Store::new(ROOM), Vec::new(), bounds.steps);
        let mut search = Search { program, bounds, states, nodes, cut, steps, is_full: false };
        for state in reached {
            let before = search.len() as u32;
            search.add(&state, Node { depth: 0, before, thread: 0, position: 0 });
        }
        search
    }

    /// How many states were reached.
    pub(super) fn len(&self) -> usize {
        self.nodes.len()
    }

    pub(super) fn state(&self, index: usize) -> State {
        self.states.state(index)
    }

    /// Visits states in the order of their distance from a start state, up to the first of which `sought` says something.
    pub(super) fn first<T>(&mut self, sought: &dyn Fn(&State) -> Option<T>) -> Option<(usize, T)> {
        let mut index = 0;
        while index < self.len() {
            let state = self.state(index);
            if let Some(found) = sought(&state) {
                return Some((index, found));
            }
            self.expand(index, &state);
            index += 1;
        }
        None
    }

    /// Visits all states, whatever the outline says.
    pub(super) fn exhaust(&mut self) {
        self.first::<()>(&|_| None);
    }

    /// Adds the states that one step more leads to, within the bounds. Once no further state is kept there is no use in it.
    fn expand(&mut self, index: usize, state: &State) {
        if self.is_full {
            return;
        }
        for (step, next) in steps_from(self.program, state) {
            self.add_within(&next, index, step);
        }
    }

    /// Adds a state to which a step leads, unless it is known or a bound forbids it, which is noted.
    pub(super) fn add_within(&mut self, next: &State, before: usize, step: Step) {
        let depth = self.nodes[before].depth + 1;
        let steps = depth as usize > self.bounds.steps;
        let writes = longest_row(next) > self.bounds.writes;
        if writes || steps {
            self.cut.writes |= writes;
            // A state that is known already is not left out by the bound of steps.
            self.cut.steps |= !writes && !self.states.knows(next);
            return;
        }
        let (thread, position) = (step.thread, step.position as u8);
        self.add(next, Node { depth, before: before as u32, thread, position });
    }

    fn add(&mut self, state: &State, node: Node) {
        match self.states.add(state, self.bounds.states) {
            Added::New => self.nodes.push(node),
            Added::Known => {}
            Added::NoRoom => {
                let most = self.len() >= self.bounds.states;
                self.cut.states |= most;
                self.cut.room |= !most;
                self.is_full = true;
                self.steps = self.steps.min((node.depth as usize).saturating_sub(1));
            }
        }
    }

    /// The start state and the steps that lead from it to a node.
    pub(super) fn run_to(&self, index: usize) -> (State, Vec<Step>) {
        let mut run = Vec::new();
        let mut at = index;
        while self.nodes[at].depth > 0 {
            let node = &self.nodes[at];
            run.push(Step { thread: node.thread, position: node.position.into() });
            at = node.before as usize;
        }
        run.reverse();
        (self.state(at), run)
    }
}

/// Every step that the machine allows, with the state it leads to.
pub(super) fn steps_from(program: &Program, state: &State) -> Vec<(Step, State)> {
    let positions = state.rows.iter().map(Vec::len).max().unwrap_or(1);
    let threads = 1..=state.points.len() as u8;
    let steps = threads
        .flat_map(|thread| (0..positions).map(move |position| Step { thread, position }))
        .filter_map(|step| Some((step, take(&program.threads, state, step)?)));
    steps.collect()
}

fn longest_row(state: &State) -> usize {
    state.rows.iter().map(Vec::len).max().unwrap_or(0)
}
