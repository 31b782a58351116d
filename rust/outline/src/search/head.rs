//! Rules 3, 4, 5, 10 and 47 along what the acting thread sees: the head of a chop is taken off.

use crate::search::interval::both_parts;
use crate::search::plan::Plan;
use crate::search::prover::{At, Line, Prover};
use crate::search::triple::{reading, Context};
use crate::search::write::covering;
use crate::terms::*;
use reference::checker::rules::{before_load, covered_till_last, keeps};
use reference::formula::atoms::Atoms;
use reference::formula::{Assertion, Interval, Test};

/// The tests of a disjunction about register r, as one test.
fn tests_in(goal: &A, r: u8) -> Option<T> {
    match &**goal {
        Assertion::Either(a, b) => match (tests_in(a, r), tests_in(b, r)) {
            (Some(p), Some(q)) => Some(or(&p, &q)),
            (p, q) => p.or(q),
        },
        Assertion::Holds(e) if e.has_register(r) => Some(e.clone()),
        _ => None,
    }
}

impl Prover<'_> {
    /// For each view of the acting thread, alone or with another, the triple from it to the goal.
    pub fn ways_by_heads(&mut self, context: &Context, goal: &A, ways: &mut Vec<Plan>) {
        if self.instruction(context.at).assignments().is_some() || goal.as_both().is_some() {
            return;
        }
        let seen = context.seen_by(context.at.thread);
        let mut views = seen.clone();
        for (n, i) in seen.iter().enumerate() {
            views.extend(seen[n + 1..].iter().map(|k| both(i, k)));
        }
        for i in views {
            ways.extend(self.via_view(context.at, &i, goal).map(Plan::Ready));
        }
    }

    /// {t sees I} c {goal}, for the acting thread t.
    pub fn via_view(&mut self, at: At, i: &I, goal: &A) -> Option<Line> {
        if let Some(line) = self.lines.find(&at.triple(&sees(at.thread, i), goal)) {
            return Some(line);
        }
        let key = (at, i.clone(), goal.clone(), self.kind());
        if self.unreached.contains(&key) || !self.budget.spend() {
            return None;
        }
        let found = self
            .view_kept(at, i, goal)
            .or_else(|| self.view_used(at, i, goal))
            .or_else(|| self.head_off(at, i, goal))
            .or_else(|| self.view_carried(at, i, goal));
        if found.is_none() && !self.budget.is_spent() {
            self.unreached.insert(key);
        }
        found
    }

    /// The view itself is not kept, since it names the word that is written, but a part of it is and gives the goal.
    fn part_kept(&mut self, at: At, i: &I, goal: &A) -> Option<Line> {
        if !self.wide {
            return None;
        }
        let instruction = self.instruction(at);
        let view = sees(at.thread, i);
        let parts = both_parts(i).into_iter().map(|part| sees(at.thread, &part));
        for kept in unique([goal.clone()].into_iter().chain(parts)) {
            if kept == view || keeps(&instruction, kept.as_ref()) != Some(true) {
                continue;
            }
            if self.implied(&view, &kept).is_none() {
                continue;
            }
            let Some(last) = self.implied(&kept, goal) else { continue };
            let line = self.step(at, 1, &kept, &kept, &[])?;
            return self.around(at, &view, line, last);
        }
        None
    }

    /// The view is kept beside an easier goal: in `h and s or Q`, s is left out if the view gives it.
    fn view_carried(&mut self, at: At, i: &I, goal: &A) -> Option<Line> {
        let view = sees(at.thread, i);
        if keeps(&self.instruction(at), view.as_ref()) != Some(true) {
            return None;
        }
        let easier = self.without_given(&view, goal);
        if easier == *goal {
            return None;
        }
        let kept = self.step(at, 1, &view, &view, &[])?;
        let reached = self.via_view(at, i, &easier)?;
        let (twice, pair) = (both(&view, &view), both(&view, &easier));
        let line = self.step(at, 14, &twice, &pair, &[kept, reached])?;
        let last = self.implied(&pair, goal)?;
        self.around(at, &view, line, last)
    }

    /// The disjunction without the parts of its conjunctions that the view gives.
    fn without_given(&mut self, view: &A, goal: &A) -> A {
        match &**goal {
            Assertion::Either(a, b) => {
                either(&self.without_given(view, a), &self.without_given(view, b))
            }
            Assertion::Both(a, b) if self.implied(view, a).is_some() => self.without_given(view, b),
            Assertion::Both(a, b) if self.implied(view, b).is_some() => self.without_given(view, a),
            _ => goal.clone(),
        }
    }

    /// The view is kept by rule 1 and gives the goal.
    fn view_kept(&mut self, at: At, i: &I, goal: &A) -> Option<Line> {
        let view = sees(at.thread, i);
        if keeps(&self.instruction(at), view.as_ref()) != Some(true) {
            return None;
        }
        let last = self.implied(&view, goal)?;
        let line = self.step(at, 1, &view, &view, &[])?;
        self.around(at, &view, line, last)
    }

    /// Rule 16 about a triple, without identities where nothing changes.
    fn around(&mut self, at: At, view: &A, triple: Line, last: Line) -> Option<Line> {
        let before = self.left(triple);
        let first = if *view == before { None } else { Some(self.implied(view, &before)?) };
        let last = if self.left(last) == self.right(last) { None } else { Some(last) };
        self.consequence(at, first, triple, last)
    }

    /// Rules 3, 6, 11, 47 and 48, which start from what t alone sees.
    fn view_used(&mut self, at: At, i: &I, goal: &A) -> Option<Line> {
        for (rule, before, after) in self.own_views(at, goal) {
            if self.include(i, &before).is_none() {
                continue;
            }
            let Some(last) = self.implied(&after, goal) else { continue };
            let line = self.step(at, rule, &sees(at.thread, &before), &after, &[])?;
            return self.around(at, &sees(at.thread, i), line, last);
        }
        None
    }

    /// What t is to see before the instruction, and what it then brings about, by each rule.
    fn own_views(&self, at: At, goal: &A) -> Vec<(u8, I, A)> {
        let instruction = self.instruction(at);
        let mut found: Vec<(u8, I, A)> = Vec::new();
        if let Some((rule, load)) = reading(&instruction) {
            let test = tests_in(goal, load.register);
            found.extend(test.map(|e| (rule, before_load(&e, &load).into(), holds(&e))));
        }
        if let Some((rule, _, write)) = covering(&instruction) {
            let before = covered_till_last(write.word).into();
            found.push((rule, before, sees(at.thread, &write.settled().into())));
        }
        if let Some(store) = instruction.store() {
            let after = sees(at.thread, &store.settled().into());
            found.push((6, Interval::One(store.word).into(), after));
        }
        found
    }

    /// What may be taken off the front, with the rule and for a load the test that it then makes true.
    fn heads(&self, at: At, goal: &A) -> Vec<(u8, I, Option<T>)> {
        let instruction = self.instruction(at);
        let mut found = Vec::new();
        if let Some(x) = instruction.joined_word() {
            found.push((5, all(&Test::Unsync(x).into()), None));
        }
        if let Some(x) = instruction.written_word() {
            found.push((10, all(&Test::Covered(x).into()), None));
        }
        if let Some(load) = instruction.load() {
            if let Some(e) = tests_in(goal, load.register) {
                found.push((4, before_load(&e, &load).into(), Some(e)));
            }
        }
        found
    }

    /// One head taken off: the rest must lead to the goal.
    fn head_off(&mut self, at: At, i: &I, goal: &A) -> Option<Line> {
        for (a, b) in self.fronts_of(i) {
            for (rule, head, read) in self.heads(at, goal) {
                if self.include(&a, &head).is_none() {
                    continue;
                }
                let rest = self.via_view(at, &b, goal).or_else(|| self.part_kept(at, &b, goal));
                let Some(rest) = rest else { continue };
                let before = sees(at.thread, &chop(&head, &b));
                let after = match &read {
                    Some(g) => either(&holds(g), goal),
                    None => goal.clone(),
                };
                let line = self.step(at, rule, &before, &after, &[rest])?;
                let last = self.implied(&after, goal)?;
                return self.around(at, &sees(at.thread, i), line, last);
            }
        }
        None
    }

    /// Ways to read an interval as front and rest: turned to the right, or spread by rule 38.
    fn fronts_of(&self, i: &I) -> Vec<(I, I)> {
        match &**i {
            Interval::Chop(a, b) => match &**a {
                Interval::Chop(a1, a2) => self.fronts_of(&chop(a1, &chop(a2, b))),
                _ => vec![(a.clone(), b.clone())],
            },
            Interval::Both(k, m) => {
                let spread = |whole: &I, (a, b): (I, I)| (both(whole, &a), both(whole, &b));
                let right = self.fronts_of(m).into_iter().map(|c| spread(k, c));
                let left = self.fronts_of(k).into_iter().map(|c| spread(m, c));
                right.chain(left).collect()
            }
            _ => Vec::new(),
        }
    }
}
