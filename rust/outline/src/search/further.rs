//! Ways by the further rules, 51 to 61, in a search that may use them: `docs/PROPOSALS.md` states them.
//!
//! Everything here does nothing in a search by the published rules.

use crate::search::cases::Case;
use crate::search::interval::both_parts;
use crate::search::plan::Plan;
use crate::search::prover::{At, Line, Prover};
use crate::search::triple::{then, Context};
use crate::search::write::cuts;
use crate::terms::*;
use reference::checker::rules::further::{at_last, is_along_one_word};
use reference::checker::rules::{keeps, Rules};
use reference::formula::{Assertion, Interval, Test, Value};

impl Prover<'_> {
    /// From now on these rules serve. What was not found by fewer is sought again.
    pub fn go_by(&mut self, rules: Rules) {
        self.lines.rules = rules;
        self.missed = Default::default();
        self.refuted = Default::default();
        self.unreached.clear();
        self.unfit.clear();
    }

    pub fn goes_further(&self) -> bool {
        self.lines.rules == Rules::WithFurther
    }

    /// Rules 51, 52, 54 and 55: ways to `u sees J`.
    pub fn further_ways_to_view(&mut self, context: &Context, u: u8, j: &I, ways: &mut Vec<Plan>) {
        if self.goes_further() {
            self.ways_by_fetched_value(context, u, j, ways);
            self.ways_by_landing(context, u, j, ways);
        }
    }

    /// Rules 51 and 52: a test that the new value of an exchange passes too, or each sum of a fetch-add.
    fn ways_by_fetched_value(&mut self, context: &Context, u: u8, j: &I, ways: &mut Vec<Plan>) {
        let at = context.at;
        let instruction = self.instruction(at);
        let tests = unique([j.clone()].into_iter().chain(context.seen_by(u)));
        for (k, e) in tests.iter().filter_map(|k| Some((k, k.as_all()?))) {
            if let Some(write) = instruction.exchange() {
                let after = replaced(e, Value::Word(write.word), &write.value);
                let before = both(&sees(u, k), &sees(u, &all(&after)));
                self.way(at, 51, &before, (u, k), j, ways);
            }
            if let Some(added) = instruction.fetch_add() {
                let sum = sum(&word(added.word), &added.value);
                let after = all(&replaced(e, Value::Word(added.word), &sum));
                let summed = chop(&all(&Test::Covered(added.word).into()), &after);
                let before = both(&sees(u, k), &sees(at.thread, &summed));
                self.way(at, 52, &before, (u, k), j, ways);
            }
        }
    }

    /// Rules 54 and 55: the new write behind what u sees of one write, or somewhere along what it sees.
    fn ways_by_landing(&mut self, context: &Context, u: u8, j: &I, ways: &mut Vec<Plan>) {
        let at = context.at;
        let Some(store) = self.instruction(at).store() else { return };
        let (one, new): (I, I) = (Interval::One(store.word).into(), store.settled().into());
        for i in self.fronts(context, u, j) {
            let before = sees(u, &both(&one, &i));
            self.way(at, 54, &before, (u, &chop(&i, &new)), j, ways);
        }
        for i in context.seen_by(u) {
            let Some(line) = self.landed(at, u, &i) else { continue };
            let after = self.right(line);
            let Some((_, k)) = after.as_sees() else { continue };
            if let Some(last) = self.view_gives_view(u, k, j) {
                ways.push(then(Plan::Ready(line), last, &after, &sees(u, j)));
            }
        }
    }

    /// Rules 54 and 55 along a chop: a triple from `u sees I` to where the new write may have come in.
    fn landed(&mut self, at: At, u: u8, i: &I) -> Option<Line> {
        let store = self.instruction(at).store()?;
        let (one, new): (I, I) = (Interval::One(store.word).into(), store.settled().into());
        let (before, line) = match first_part(i) {
            None => {
                let before = both(&one, i);
                let after = sees(u, &chop(i, &new));
                (before.clone(), self.step(at, 54, &sees(u, &before), &after, &[])?)
            }
            Some((a, b)) => {
                self.include(&a, &one)?;
                let behind = self.landed(at, u, &b)?;
                let after = self.right(behind);
                let (_, l) = after.as_sees()?;
                let before = chop(&both(&a, &one), &b);
                let after = either(&chop(&a, &chop(&new, &b)), &chop(&a, l));
                (before.clone(), self.step(at, 55, &sees(u, &before), &sees(u, &after), &[behind])?)
            }
        };
        let first = self.view_gives_view(u, i, &before)?;
        self.consequence(at, Some(first), line, None)
    }

    /// Rules 55 and 56: ways to a disjunction of what a thread sees along the word that is written.
    pub fn further_ways_to_either(&mut self, context: &Context, goal: &A, ways: &mut Vec<Plan>) {
        if !self.goes_further() || self.instruction(context.at).store().is_none() {
            return;
        }
        for u in seers(goal) {
            for i in context.seen_by(u) {
                ways.extend(self.divided_way(context.at, u, &i, goal));
            }
        }
    }

    fn divided_way(&mut self, at: At, u: u8, i: &I, goal: &A) -> Option<Plan> {
        let line = self.landed(at, u, i)?;
        let after = self.right(line);
        let (_, k) = after.as_sees()?;
        let (divided, apart) = self.divided(u, k)?;
        let last = self.implied(&apart, goal)?;
        let last = self.chain(divided, last)?;
        Some(then(Plan::Ready(line), last, &after, goal))
    }

    /// Rule 56, behind rule 59 where the `|` stands in an `&`: from `u sees I` to `u sees` one side or the other.
    fn divided(&mut self, u: u8, i: &I) -> Option<(Line, A)> {
        let sides = sides_of(i)?;
        if !is_along_one_word(&sides) {
            return None;
        }
        let (a, b) = sides.as_either()?;
        let apart = either(&sees(u, a), &sees(u, b));
        let line = self.fact(56, &sees(u, &sides), &apart, &[])?;
        let first = self.view_gives_view(u, i, &sides)?;
        Some((self.chain(first, line)?, apart))
    }

    /// A search in both cases of a view that rule 56 divides.
    pub fn in_divided_cases(
        &mut self,
        case: &Case,
        search: &dyn Fn(&mut Self, &Case) -> Option<Vec<Line>>,
    ) -> Option<Vec<Line>> {
        if !self.goes_further() {
            return None;
        }
        for (n, view) in case.sees.iter().enumerate() {
            let (u, i) = view.as_sees()?;
            let Some((line, apart)) = self.divided(u, i) else { continue };
            let (a, b) = apart.as_either()?;
            let mut found = vec![line];
            let whole = [a, b].into_iter().all(|side| {
                let mut own = case.clone();
                own.sees[n] = side.clone();
                let more = search(self, &own)
                    .or_else(|| Some(vec![self.contradiction(&own)?]))
                    .or_else(|| self.in_divided_cases(&own, search));
                let is_found = more.is_some();
                found.extend(more.into_iter().flatten());
                is_found
            });
            if whole {
                return Some(unique(found));
            }
        }
        None
    }

    /// Rule 53: what two views say of the last writes gives the test, alone or with what is known of registers.
    pub fn test_from_last_views(&mut self, case: &Case, e: &T) -> Option<Line> {
        if !self.goes_further() {
            return None;
        }
        let views: Vec<(u8, I)> =
            case.sees.iter().filter_map(|a| a.as_sees().map(|(u, i)| (u, i.clone()))).collect();
        for (n, one) in views.iter().enumerate() {
            for other in &views[n + 1..] {
                if let Some(line) = self.test_from_pair(case, one, other, e) {
                    return Some(line);
                }
            }
        }
        None
    }

    fn test_from_pair(
        &mut self,
        case: &Case,
        (u, i): &(u8, I),
        (v, k): &(u8, I),
        e: &T,
    ) -> Option<Line> {
        for a in with_parts(i) {
            for b in with_parts(k) {
                let known: T = Test::and(at_last(&a), at_last(&b)).into();
                let near = case.tests_about(and(&known, e).as_ref());
                let goals = [Some(e.clone()), near.map(|near| or(&not(&near), e))];
                let Some(goal) = goals.into_iter().flatten().find(|g| self.by_rows(&known, g))
                else {
                    continue;
                };
                let line =
                    self.fact(53, &both(&sees(*u, &a), &sees(*v, &b)), &holds(&goal), &[])?;
                return self.whole_views_give((*u, i, &a), (*v, k, &b), line);
            }
        }
        None
    }

    /// Rule 53: can no last writes be as both views say?
    pub fn last_views_exclude(&mut self, i: &I, j: &I) -> bool {
        let known: T = Test::and(at_last(i), at_last(j)).into();
        self.goes_further() && self.by_rows(&known, &falsehood())
    }

    /// Rule 53 behind a read: what the reader comes to see and what another thread sees all the while exclude each other,
    /// so that it has read what gives the test.
    pub fn further_ways_to_test(&mut self, context: &Context, e: &T, ways: &mut Vec<Plan>) {
        let at = context.at;
        let instruction = self.instruction(at);
        if !self.goes_further() || instruction.load().is_none() {
            return;
        }
        let others: Vec<A> = context
            .views
            .iter()
            .filter(|view| keeps(&instruction, view.as_ref()) == Some(true))
            .cloned()
            .collect();
        for i in context.seen_by(at.thread) {
            for (_, end) in cuts(&i) {
                for kept in &others {
                    ways.extend(self.excluded_end(at, (&i, &end), kept, &holds(e)));
                }
            }
        }
    }

    /// A way from `t sees I` and another view to the goal: past I's end, where both views would be.
    fn excluded_end(&mut self, at: At, (i, end): (&I, &I), kept: &A, goal: &A) -> Option<Plan> {
        if !self.last_views_exclude(end, kept.as_sees()?.1) {
            return None;
        }
        let wider = either(goal, &sees(at.thread, end));
        let read = self.via_view(at, i, &wider)?;
        let stays = self.step(at, 1, kept, kept, &[])?;
        let clash = both(&sees(at.thread, end), kept);
        let clash = self.fact(53, &clash, &holds(&falsehood()), &[])?;
        let last = self.fact(20, &both(&wider, kept), goal, &[clash])?;
        let both_known = Plan::All(Plan::Ready(read).into(), Plan::Ready(stays).into());
        Some(Plan::Then(both_known.into(), last))
    }

    /// The implication from whole views whose parts the line speaks of.
    fn whole_views_give(
        &mut self,
        (u, i, a): (u8, &I, &I),
        (v, k, b): (u8, &I, &I),
        line: Line,
    ) -> Option<Line> {
        if (i, k) == (a, b) {
            return Some(line);
        }
        let premises = [self.view_gives_view(u, i, a)?, self.view_gives_view(v, k, b)?, line];
        let goal = self.right(line);
        self.fact(20, &both(&sees(u, i), &sees(v, k)), &goal, &premises)
    }

    /// Rules 57 and 58: an end of a chop that no view is in.
    pub fn by_empty_end(&mut self, i: &I, j: &I, d: u8) -> Option<Line> {
        if !self.goes_further() {
            return None;
        }
        let (a, b) = i.as_chop()?;
        let nothing = all(&falsehood());
        for (rule, full, empty) in [(57, a, b), (58, b, a)] {
            let Some(gone) = self.include_within(empty, &nothing, d) else { continue };
            let Some(last) = self.include_within(full, j, d) else { continue };
            let same = self.part(46, full, full, &[])?;
            let (emptied, premises) = match rule {
                57 => (chop(full, &nothing), [same, gone]),
                _ => (chop(&nothing, full), [gone, same]),
            };
            let first = self.part(32, i, &emptied, &premises)?;
            let second = self.part(rule, &emptied, full, &[])?;
            let half = self.link(first, second)?;
            return self.link(half, last);
        }
        None
    }

    /// Rule 59: both sides of a `|` that stands in an `&`.
    pub fn by_sides_in_both(&mut self, i: &I, j: &I, d: u8) -> Option<Line> {
        if !self.goes_further() || i.as_both().is_none() {
            return None;
        }
        let sides = sides_of(i)?;
        let last = self.include_within(&sides, j, d)?;
        let (a, b) = sides.as_either()?;
        let ordered = both(a.as_both()?.0, &either(a.as_both()?.1, b.as_both()?.1));
        let first = self.include_within(i, &ordered, d)?;
        let second = self.part(59, &ordered, &sides, &[])?;
        let half = self.link(first, second)?;
        self.link(half, last)
    }

    /// Rules 60 and 61: a side of the left side alone, where both together have too many leaves.
    pub fn by_projection(&mut self, at: At, p: &A, q: &A) -> Option<Line> {
        if !self.goes_further() {
            return None;
        }
        let (a, b) = p.as_both()?;
        for (rule, side) in [(60, a), (61, b)] {
            if let Some(line) = self.triple_by_cases(at, side, q) {
                let first = self.fact(rule, p, side, &[])?;
                return self.consequence(at, Some(first), line, None);
            }
        }
        None
    }
}

/// The first part of a chop and the rest, turned to the right.
fn first_part(i: &I) -> Option<(I, I)> {
    let (a, b) = i.as_chop()?;
    match a.as_chop() {
        Some((a1, a2)) => first_part(&chop(a1, &chop(a2, b))),
        None => Some((a.clone(), b.clone())),
    }
}

/// The interval itself, and the parts that `&` joins.
fn with_parts(i: &I) -> Vec<I> {
    unique([i.clone()].into_iter().chain(both_parts(i)))
}

/// An interval with a `|` outermost, as it is or by rule 59 from one inside of `&`.
fn sides_of(i: &I) -> Option<I> {
    if i.as_either().is_some() {
        return Some(i.clone());
    }
    let parts = both_parts(i);
    let (n, (a, b)) = parts.iter().enumerate().find_map(|(n, p)| Some((n, p.as_either()?)))?;
    let others = [&parts[..n], &parts[n + 1..]].concat();
    let whole = fold_right(&others, both)?;
    Some(either(&both(&whole, a), &both(&whole, b)))
}

/// The threads whose views a disjunction has.
fn seers(goal: &A) -> Vec<u8> {
    match &**goal {
        Assertion::Either(a, b) => unique([seers(a), seers(b)].concat()),
        Assertion::Both(a, b) => unique([seers(a), seers(b)].concat()),
        Assertion::Sees(u, _) => vec![*u],
        Assertion::Start | Assertion::Holds(_) => Vec::new(),
    }
}
