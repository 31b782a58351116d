//! Ways to `u sees J` over an instruction: rules 1, 6 to 9, 11 to 13, 48 and 49.

use crate::search::plan::Plan;
use crate::search::prover::{At, Prover};
use crate::search::triple::{then, Context};
use crate::terms::*;
use reference::checker::rules::{covered_till_last, keeps, Write};
use reference::formula::atoms::Atoms;
use reference::formula::{Interval, Test, Value};
use reference::image::Instruction;

/// Every way to cut an interval in two at a chop: front and back.
pub fn cuts(j: &I) -> Vec<(I, I)> {
    let Some((a, b)) = j.as_chop() else { return Vec::new() };
    let mut all = vec![(a.clone(), b.clone())];
    all.extend(cuts(b).into_iter().map(|(x, y)| (chop(a, &x), y)));
    all.extend(cuts(a).into_iter().map(|(x, y)| (x, chop(&y, b))));
    all
}

impl Prover<'_> {
    pub fn ways_to_view(&mut self, context: &Context, u: u8, j: &I, ways: &mut Vec<Plan>) {
        self.ways_kept(context, u, j, ways);
        self.ways_by_value(context, u, j, ways);
        self.ways_by_store(context, u, j, ways);
        self.ways_by_release(context, u, j, ways);
        self.ways_by_swap(context, u, j, ways);
        self.ways_apart(context, u, j, ways);
        self.further_ways_to_view(context, u, j, ways);
    }

    /// `u sees I & J` and `u sees [E and F]` by halves; a test of registers alone by `holds`.
    fn ways_apart(&mut self, context: &Context, u: u8, j: &I, ways: &mut Vec<Plan>) {
        let apart = match &**j {
            Interval::Both(a, b) => both(&sees(u, a), &sees(u, b)),
            Interval::All(e) => match &**e {
                Test::And(a, b) => both(&sees(u, &all(a)), &sees(u, &all(b))),
                _ if registers_only(e.as_ref()) => holds(e),
                _ => return,
            },
            _ => return,
        };
        let goal = sees(u, j);
        let last = self.implied(&apart, &goal).or_else(|| self.fact(24, &apart, &goal, &[]));
        if let Some(last) = last {
            ways.push(Plan::Then(self.plan(context, &apart).into(), last));
        }
    }

    /// Adds a triple to `u sees K` if K is in J.
    pub fn way(
        &mut self,
        at: At,
        rule: u8,
        before: &A,
        after: (u8, &I),
        j: &I,
        ways: &mut Vec<Plan>,
    ) {
        let (u, k) = after;
        let goal = sees(u, j);
        let Some(last) = self.view_gives_view(u, k, j) else { return };
        if let Some(line) = self.step(at, rule, before, &sees(u, k), &[]) {
            ways.push(then(Plan::Ready(line), last, &sees(u, k), &goal));
        }
    }

    /// Rule 1 on a view of the left side that lies in J.
    fn ways_kept(&mut self, context: &Context, u: u8, j: &I, ways: &mut Vec<Plan>) {
        let instruction = self.instruction(context.at);
        for i in context.seen_by(u) {
            if i != *j && keeps(&instruction, i.as_ref()) == Some(true) {
                self.way(context.at, 1, &sees(u, &i), (u, &i), j, ways);
            }
        }
    }

    /// Rule 9: a test that the new value passes too.
    fn ways_by_value(&mut self, context: &Context, u: u8, j: &I, ways: &mut Vec<Plan>) {
        let instruction = self.instruction(context.at);
        let Some(write) = instruction.store_or_swap() else { return };
        let mut tests = vec![j.clone()];
        tests.extend(context.seen_by(u));
        tests.dedup();
        for k in tests {
            if let Some(e) = k.as_all() {
                let after = replaced(e, Value::Word(write.word), &write.value);
                let before = both(&sees(u, &k), &sees(u, &all(&after)));
                self.way(context.at, 9, &before, (u, &k), j, ways);
            }
        }
    }

    /// The intervals that may stand before a new write: beginnings of J, and what u sees already.
    pub fn fronts(&self, context: &Context, u: u8, j: &I) -> Vec<I> {
        let beginnings = cuts(j).into_iter().map(|c| c.0);
        unique([j.clone()].into_iter().chain(beginnings).chain(context.seen_by(u)))
    }

    /// What the writer may pass on: ends of J, and what t sees already, without the word and the result.
    pub fn passed_on(&self, context: &Context, x: u8, j: &I) -> Vec<I> {
        let ends = cuts(j).into_iter().map(|c| c.1);
        let ways = unique(ends.chain(context.seen_by(context.at.thread)).chain([j.clone()]));
        let result = self.instruction(context.at).result();
        let free = |k: &I| !k.has_word(x) && !result.is_some_and(|r| k.has_register(r));
        ways.into_iter().filter(free).collect()
    }

    /// Rules 6, 7 and 8.
    fn ways_by_store(&mut self, context: &Context, u: u8, j: &I, ways: &mut Vec<Plan>) {
        let at = context.at;
        let instruction = self.instruction(at);
        let Some(store) = instruction.store() else { return };
        let (x, new): (u8, I) = (store.word, store.settled().into());
        let alone = sees(at.thread, &Interval::One(x).into());
        if u == at.thread {
            self.way(at, 6, &alone, (u, &new), j, ways);
            self.way_by_result(context, 6, &alone, (u, &new), j, ways);
        }
        for i in self.fronts(context, u, j) {
            let before = both(&alone, &sees(u, &i));
            self.way(at, 7, &before, (u, &chop(&i, &new)), j, ways);
            if !registers_of(store.value.as_ref()).is_empty() {
                self.way_by_result(context, 7, &before, (u, &chop(&i, &new)), j, ways);
            }
            if instruction.releasing_store().is_some() {
                for k in self.passed_on(context, x, j) {
                    let after = chop(&i, &chop(&unsync(x), &k));
                    let before = both(&alone, &both(&sees(u, &i), &sees(at.thread, &k)));
                    self.way(at, 8, &before, (u, &after), j, ways);
                }
            }
        }
    }

    /// A triple to `u sees K` that lies in J once the registers say that the new value passes J's tests:
    /// fetch-add writes register + f, where J may have a constant.
    fn way_by_result(
        &mut self,
        context: &Context,
        rule: u8,
        before: &A,
        after: (u8, &I),
        j: &I,
        ways: &mut Vec<Plan>,
    ) {
        let at = context.at;
        let (u, k) = after;
        let Some(write) = written(&self.instruction(at)) else { return };
        let x = Value::Word(write.word);
        let about = boxed_tests(j).into_iter().filter(|e| e.has_word(write.word));
        let values = about.map(|e| replaced(&e, x.clone(), &write.value));
        let passed: Vec<T> = unique(values.filter(|e| registers_only(e.as_ref())));
        let Some(together) = fold_right(&passed, and) else { return };
        if !self.wide || self.include(k, j).is_some() {
            return;
        }
        // All of them, or one alone, since along a chop they may exclude each other. In a view a test of many
        // comparisons is one leaf.
        for passed in unique([together].into_iter().chain(passed)) {
            for known in [holds(&passed), sees(u, &all(&passed))] {
                let joined = both(&sees(u, k), &known);
                let Some(last) = self.implied(&joined, &sees(u, j)) else { continue };
                if let Some(line) = self.step(at, rule, before, &sees(u, k), &[]) {
                    let values = self.plan(context, &known);
                    let all = Plan::All(Plan::Ready(line).into(), values.into());
                    ways.push(Plan::Then(all.into(), last));
                }
                break;
            }
        }
    }

    /// Rules 11 and 12 for a swap, 48 and 49 for exchange and fetch-add; 13.
    fn ways_by_swap(&mut self, context: &Context, u: u8, j: &I, ways: &mut Vec<Plan>) {
        let at = context.at;
        let Some((own, others, write)) = covering(&self.instruction(at)) else { return };
        let (x, new): (u8, I) = (write.word, write.settled().into());
        let till_last: I = covered_till_last(x).into();
        let (mine, theirs) = (sees(at.thread, &till_last), sees(u, &till_last));
        let covered = all(&Test::Covered(x).into());
        if u == at.thread {
            self.way(at, own, &mine, (u, &new), j, ways);
            self.way_by_result(context, own, &mine, (u, &new), j, ways);
        }
        let (pair, behind) = (both(&mine, &theirs), chop(&covered, &new));
        self.way(at, others, &pair, (u, &behind), j, ways);
        self.way_by_result(context, others, &pair, (u, &behind), j, ways);
        for k in self.passed_on(context, x, j) {
            let after = chop(&covered, &chop(&unsync(x), &k));
            let before = both(&mine, &both(&theirs, &sees(at.thread, &k)));
            self.way(at, 13, &before, (u, &after), j, ways);
        }
    }
}

/// The tests in an interval.
fn boxed_tests(j: &I) -> Vec<T> {
    match &**j {
        Interval::All(e) => vec![e.clone()],
        Interval::One(_) => Vec::new(),
        Interval::Chop(a, b) | Interval::Both(a, b) | Interval::Either(a, b) => {
            [boxed_tests(a), boxed_tests(b)].concat()
        }
    }
}

/// What an instruction writes.
fn written(instruction: &Instruction) -> Option<Write> {
    instruction.store_or_swap().or_else(|| instruction.fetching())
}

/// What an operation that covers writes, with its rules for the own view and for any view.
pub fn covering(instruction: &Instruction) -> Option<(u8, u8, Write)> {
    let swap = instruction.swap().map(|write| (11, 12, write));
    swap.or_else(|| instruction.fetching().map(|write| (48, 49, write)))
}

/// `[unsync x]`
pub fn unsync(x: u8) -> I {
    all(&Test::Unsync(x).into())
}
