//! Search for triples: plans by the shape of the goal, then the cases of the left side.

use crate::search::budget::SHARE;
use crate::search::cases::{cases, Case};
use crate::search::implication::conjuncts;
use crate::search::interval::both_parts;
use crate::search::plan::{Choice, Done, Plan};
use crate::search::prover::{At, Line, Prover, Stand};
use crate::search::support::expand;
use crate::search::tried::Lacking;
use crate::terms::*;
use reference::checker::rules::table::Leaves;
use reference::checker::rules::{before_load, before_notes, keeps, Load};
use reference::formula::atoms::Atoms;
use reference::formula::{Assertion, Formula, Test};
use reference::image::Instruction;

/// The place of the instruction and the views that the left side speaks of.
pub struct Context {
    pub at: At,
    pub views: Vec<A>,
}

impl Context {
    /// The intervals that the left side has for thread u, and the parts of those joined by `&`.
    pub fn seen_by(&self, u: u8) -> Vec<I> {
        let whole = Case { sees: self.views.clone(), ..Case::default() }.seen_by(u);
        unique(whole.into_iter().flat_map(|i| {
            let parts = both_parts(&i);
            [i].into_iter().chain(parts)
        }))
    }
}

/// What a search for a triple goes by.
#[derive(Debug, Clone, Copy, PartialEq, Eq)]
enum With {
    /// The rules alone: steps that were named never make a search longer that needs none of them.
    Rules,
    /// Named steps, with their gaps searched.
    Steps,
    /// The rules, and behind them the named steps.
    StepsLast,
    /// The named steps, and behind them the rules.
    StepsFirst,
}

impl With {
    const ALL: [With; 4] = [With::Rules, With::Steps, With::StepsLast, With::StepsFirst];
}

impl Prover<'_> {
    /// A line for {P} c {Q}, if the search finds one. Each way of searching has its share of the tries first, so that
    /// none keeps the others from their turn, and then what is left.
    pub fn triple(&mut self, at: At, p: &A, q: &A) -> Option<Line> {
        if let Some(line) = self.lines.find(&at.triple(p, q)) {
            return Some(line);
        }
        let named = self.steps_at(at);
        if let Some(line) = self.by_fitting_steps(at, p, q, &named) {
            return Some(line);
        }
        let aided = |with: &&With| named.is_empty() && **with != With::Rules;
        let mut searches: Vec<(With, bool)> = Vec::new();
        for with in With::ALL.iter().filter(|with| !aided(with)) {
            searches.extend([(*with, false), (*with, true)]);
        }
        searches.sort_by_key(|(with, wide)| (*with != With::Rules, *wide));
        for share in [SHARE, u64::MAX] {
            let mut unended = Vec::new();
            for (with, wide) in searches {
                let (found, ended) = self.within(share, |all| match wide {
                    true => all.widened(|all| all.triple_with(with, wide, at, p, q)),
                    false => all.triple_with(with, wide, at, p, q),
                });
                if found.is_some() {
                    return found;
                }
                unended.extend((!ended).then_some((with, wide)));
            }
            searches = unended;
        }
        let told = (self.tried.clone(), self.lacking.clone());
        let found = self.triple_in_one_wording(at, p, q);
        (self.tried, self.lacking) = told;
        found
    }

    /// What a search finds within a share of the tries, and whether it came to its end.
    fn within(
        &mut self,
        share: u64,
        search: impl FnOnce(&mut Self) -> Option<Line>,
    ) -> (Option<Line>, bool) {
        let aside = self.budget.set_aside(share);
        let found = search(self);
        let ended = !self.budget.is_spent();
        self.budget.take_back(aside);
        (found, ended)
    }

    /// One search for {P} c {Q}; what is told of it is what it was without named steps.
    fn triple_with(&mut self, with: With, wide: bool, at: At, p: &A, q: &A) -> Option<Line> {
        let told = (self.tried.clone(), self.lacking.clone());
        let (found, stand) = match with {
            With::Rules => (self.with_steps(Stand::Nowhere, at, p, q), Stand::Nowhere),
            With::Steps => {
                let named = self.steps_at(at);
                (self.by_steps(at, p, q, &named), Stand::Nowhere)
            }
            With::StepsLast => (self.with_steps(Stand::Last, at, p, q), Stand::Last),
            With::StepsFirst => (self.with_steps(Stand::First, at, p, q), Stand::Last),
        };
        let by_tests = wide && matches!(with, With::Rules | With::StepsFirst);
        let found = found.or_else(|| match by_tests {
            true => self.triple_by_tests(stand, at, p, q),
            false => None,
        });
        if with != With::Rules {
            (self.tried, self.lacking) = told;
        }
        found
    }

    /// By the ways to the goal, among which the steps that were named stand so.
    fn with_steps(&mut self, stand: Stand, at: At, p: &A, q: &A) -> Option<Line> {
        let told = (std::mem::take(&mut self.tried), self.lacking.take());
        self.steps_stand = stand;
        let found = self.triple_by_cases(at, p, q);
        self.steps_stand = Stand::Nowhere;
        // A search that ended without tries has nothing to tell.
        if self.tried.is_empty() && self.lacking.is_none() {
            (self.tried, self.lacking) = told;
        }
        found
    }

    /// The tests of Q that the instruction keeps and P does not have, told apart first.
    fn triple_by_tests(&mut self, stand: Stand, at: At, p: &A, q: &A) -> Option<Line> {
        let (here, instruction) = (tests_of(p), self.instruction(at));
        let kept = |e: &T| !here.contains(e) && keeps(&instruction, e.as_ref()) == Some(true);
        let known: Vec<A> = tests_of(q)
            .into_iter()
            .filter(kept)
            .map(|e| either(&holds(&e), &holds(&not(&e))))
            .collect();
        let split = both(p, &fold_right(&known, both)?);
        let first = self.fact(20, p, &split, &[])?;
        // What was tried without these tests is told.
        let told = (self.tried.clone(), self.lacking.clone());
        let line = self.with_steps(stand, at, &split, q);
        (self.tried, self.lacking) = told;
        self.consequence(at, Some(first), line?, None)
    }

    pub fn triple_by_cases(&mut self, at: At, p: &A, q: &A) -> Option<Line> {
        let context = Context { at, views: views_in(p) };
        let Some(all) = cases(p) else {
            self.tell_leaves(p);
            return self.by_projection(at, p, q);
        };
        let done = self.serve(&context, all, q)?;
        let before = self.left(done.line);
        match self.reach(p, &before) {
            Some(firsts) => self.finish(at, firsts, done.line, done.last),
            None => self
                .case_by_case(&context, p, q)
                .or_else(|| self.goal_by_halves(at, p, q))
                .or_else(|| {
                    let text = format!("tried        {}", self.names.assertion(&before));
                    self.tried.push(text);
                    self.tried.push("             which each case gives, but together".into());
                    self.tried
                        .push("             they pass 10 leaves or 4 premises of rule 20".into());
                    None
                }),
        }
    }

    /// The halves of the goal apart, where together they ask for too much at once.
    fn goal_by_halves(&mut self, at: At, p: &A, q: &A) -> Option<Line> {
        let (a, b) = q.as_both()?;
        let once = fold_right(&conjuncts(p), both)?;
        let halves = [self.triple_by_cases(at, &once, a)?, self.triple_by_cases(at, &once, b)?];
        let twice = both(&once, &once);
        let first = self.fact(20, p, &twice, &[])?;
        let line = self.step(at, 14, &twice, q, &halves)?;
        self.consequence(at, Some(first), line, None)
    }

    /// A triple to the goal whose left side all cases give.
    pub fn serve(&mut self, context: &Context, all: Vec<Case>, goal: &A) -> Option<Done> {
        let possible: Vec<Case> = all.into_iter().filter(|c| !self.impossible(c)).collect();
        let plan = if possible.is_empty() {
            self.by_falsehood(context.at, goal)?
        } else {
            self.plan(context, goal)
        };
        let mut choice = Choice::new(plan);
        for case in possible {
            if !self.choose(&case, &mut choice) {
                // Without tries nothing is served, which says nothing.
                if !self.budget.is_spent() {
                    self.lacking = Some(Lacking { case, plan: choice.plan });
                }
                return None;
            }
        }
        self.resolve(context.at, &choice)
    }

    /// The implications that lead from p to `before`: one, or two if leaves are many.
    pub fn reach(&mut self, p: &A, before: &A) -> Option<Vec<Line>> {
        if p == before {
            return Some(Vec::new());
        }
        if let Some(line) = self.implied(p, before) {
            return Some(vec![line]);
        }
        let small = self.least_part(p, before)?;
        let first = self.fact(20, p, &small, &[])?;
        Some(vec![first, self.implied(&small, before)?])
    }

    pub fn finish(
        &mut self,
        at: At,
        firsts: Vec<Line>,
        triple: Line,
        last: Option<Line>,
    ) -> Option<Line> {
        let mut line = triple;
        let mut last = last;
        for first in firsts.into_iter().rev() {
            line = self.consequence(at, Some(first), line, last.take())?;
        }
        self.consequence(at, None, line, last)
    }

    /// All ways to a goal.
    pub fn plan(&mut self, context: &Context, goal: &A) -> Plan {
        let at = context.at;
        let instruction = self.instruction(at);
        let mut ways = Vec::new();
        if self.steps_stand == Stand::First {
            self.ways_by_steps(context, goal, &mut ways);
        }
        if let Some(notes) = instruction.assignments() {
            let before = before_notes(goal, notes);
            ways.extend(self.step(at, 2, &before, goal, &[]).map(Plan::Ready));
        }
        if keeps(&instruction, goal.as_ref()) == Some(true) {
            ways.extend(self.step(at, 1, goal, goal, &[]).map(Plan::Ready));
        }
        match &**goal {
            Assertion::Both(a, b) => {
                ways.push(Plan::All(self.plan(context, a).into(), self.plan(context, b).into()))
            }
            Assertion::Either(a, b) => {
                ways.push(Plan::Side(self.plan(context, a).into(), self.plan(context, b).into()));
                self.further_ways_to_either(context, goal, &mut ways);
            }
            Assertion::Holds(e) => self.ways_to_test(context, e, &mut ways),
            Assertion::Sees(u, j) => self.ways_to_view(context, *u, j, &mut ways),
            Assertion::Start => {}
        }
        self.ways_by_heads(context, goal, &mut ways);
        ways.extend(self.by_clauses(context, goal));
        if self.steps_stand == Stand::Last {
            self.ways_by_steps(context, goal, &mut ways);
        }
        ways.extend(self.by_falsehood(at, goal));
        Plan::Any(goal.clone(), ways.into())
    }

    /// Rules 3 and 47, and compound tests taken apart.
    fn ways_to_test(&mut self, context: &Context, e: &T, ways: &mut Vec<Plan>) {
        let at = context.at;
        let goal = holds(e);
        let read = reading(&self.instruction(at)).filter(|(_, load)| e.has_register(load.register));
        if let Some((rule, load)) = read {
            let passed: I = before_load(e, &load).into();
            let line = self.step(at, rule, &sees(at.thread, &passed), &goal, &[]);
            ways.extend(line.map(Plan::Ready));
            ways.extend(
                line.and_then(|line| self.past_covered(at, &passed, line)).map(Plan::Ready),
            );
        }
        self.further_ways_to_test(context, e, ways);
        let apart = expand(e);
        if apart != goal {
            if let Some(last) = self.fact(20, &apart, &goal, &[]) {
                ways.push(Plan::Then(self.plan(context, &apart).into(), last));
            }
        }
    }

    /// Rule 10 before a triple from `t sees I`: covered writes are none that the instruction picks.
    fn past_covered(&mut self, at: At, i: &I, line: Line) -> Option<Line> {
        let x = self.instruction(at).covered_word()?;
        let before = sees(at.thread, &chop(&all(&Test::Covered(x).into()), i));
        let goal = self.right(line);
        self.step(at, 10, &before, &goal, &[line])
    }

    /// The triples that the writer named, where they lead to the goal.
    fn ways_by_steps(&mut self, context: &Context, goal: &A, ways: &mut Vec<Plan>) {
        for line in self.steps_at(context.at) {
            let right = self.right(line);
            if let Some(last) = self.implied(&right, goal) {
                ways.push(then(Plan::Ready(line), last, &right, goal));
            }
        }
    }

    /// `false` is kept by everything and gives anything: for cases that cannot be.
    fn by_falsehood(&mut self, at: At, goal: &A) -> Option<Plan> {
        let nothing = holds(&falsehood());
        let rule = if self.instruction(at).assignments().is_some() { 2 } else { 1 };
        let line = self.step(at, rule, &nothing, &nothing, &[])?;
        let last = self.fact(20, &nothing, goal, &[])?;
        Some(then(Plan::Ready(line), last, &nothing, goal))
    }
}

/// What an instruction reads into a register, with the rule by which it learns from that.
pub fn reading(instruction: &Instruction) -> Option<(u8, Load)> {
    let load = instruction.load().map(|load| (3, load));
    load.or_else(|| instruction.fetched().map(|load| (47, load)))
}

/// A plan followed by an implication, unless that is the identity.
pub fn then(plan: Plan, last: Line, from: &A, to: &A) -> Plan {
    if from == to {
        plan
    } else {
        Plan::Then(plan.into(), last)
    }
}

/// The comparisons that the assertion is made of, each once.
fn tests_of(p: &A) -> Vec<T> {
    let Leaves(leaves) = Leaves::of(p);
    let tests = leaves.into_iter().filter_map(|leaf| match leaf {
        Formula::Test(e) => Some(e),
        _ => None,
    });
    tests.collect()
}

/// What the assertion says that threads see, each once.
fn views_in(p: &A) -> Vec<A> {
    let Leaves(leaves) = Leaves::of(p);
    let views = leaves.into_iter().filter_map(|leaf| match leaf {
        Formula::Assertion(a) => a.as_sees().is_some().then_some(a),
        _ => None,
    });
    views.collect()
}
