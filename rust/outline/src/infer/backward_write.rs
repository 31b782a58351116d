//! The rules of writes backwards: what must be so before a store, a swap, an exchange or a fetch-add.

use crate::infer::backward::{units, Way};
use crate::infer::ground::Ground;
use crate::infer::templates::{cov, one, one_eq};
use crate::search::prover::At;
use crate::search::write::{cuts, unsync};
use crate::terms::*;
use reference::checker::rules::covered_till_last;
use reference::formula::atoms::Atoms;
use reference::formula::Value;
use reference::image::{Access, Instruction};

/// The value written, and what is known of it before.
type New = (V, Vec<A>);

/// A write and the view that it is to leave.
struct Written<'a> {
    at: At,
    c: &'a Instruction,
    x: u8,
    operand: V,
    adds: bool,
    u: u8,
    j: &'a I,
}

/// More values than this are not told apart.
const MOST_VALUES: usize = 3;
/// More combinations of ways than this are not looked at.
const MOST_COMBINED: usize = 60;

impl Ground<'_> {
    /// Ways to `u sees J`, where J names the word that is written.
    pub fn before_write(&mut self, at: At, c: &Instruction, u: u8, j: &I) -> Vec<Way> {
        let Some(access) = c.access() else { return vec![] };
        let Some(operand) = access.operand().cloned() else { return vec![] };
        let adds = matches!(access, Access::FetchAdd { .. });
        let w = Written { at, c, x: access.word(), operand, adds, u, j };
        let news = self.news(&w);
        let mut ways: Vec<Way> = self.of_news(&w, &news).into_iter().map(units).collect();
        if !adds {
            ways.extend(self.by_values(&w));
        }
        ways
    }

    fn of_news(&mut self, w: &Written, news: &[New]) -> Vec<Vec<A>> {
        let mut out = Vec::new();
        if w.c.store().is_some() {
            self.by_store(w, news, &mut out);
        }
        if w.c.store_or_swap().is_some() {
            by_rule_9(w, news, &mut out);
        }
        if w.c.covered_word().is_some() {
            self.by_swap(w, news, &mut out);
        }
        out
    }

    /// The new value as it is written, or as the constant that it is in all states there.
    fn news(&self, w: &Written) -> Vec<New> {
        if w.adds {
            return vec![];
        }
        let mut news = vec![(w.operand.clone(), vec![])];
        if let Some((v, known)) = self.settled_value(w).filter(|(_, known)| !known.is_empty()) {
            news.push((constant(v), known));
        }
        news
    }

    /// The value of the operand, if it is the same in all states at its point, and what says so.
    fn settled_value(&self, w: &Written) -> Option<(u8, Vec<A>)> {
        if let Value::Constant(v) = *w.operand {
            return Some((v, vec![]));
        }
        let values = self.sample.values_at((w.at.thread, w.at.point), &w.operand);
        let v = *values.first().filter(|_| values.len() == 1)?;
        Some((v, vec![holds(&equal(&w.operand, &constant(v)))]))
    }

    /// Rules 6, 7 and 8.
    fn by_store(&mut self, w: &Written, news: &[New], out: &mut Vec<Vec<A>>) {
        let (t, x, u) = (w.at.thread, w.x, w.u);
        let mut fronts = vec![w.j.clone()];
        fronts.extend(cuts(w.j).into_iter().map(|cut| cut.0));
        for (value, known) in news {
            let new = one_eq(x, value);
            if u == t && self.includes(&new, w.j) {
                out.push([vec![sees(t, &one(x))], known.clone()].concat());
                out.push([vec![sees(t, &chop(&cov(x), &one(x)))], known.clone()].concat());
            }
            for i in &fronts {
                if self.includes(&chop(i, &new), w.j) {
                    out.push([vec![sees(t, &one(x)), sees(u, i)], known.clone()].concat());
                }
            }
        }
        if w.c.releasing_store().is_none() {
            return;
        }
        for i in &fronts {
            for k in &ends(w) {
                if self.includes(&chop(i, &chop(&unsync(x), k)), w.j) {
                    out.push(vec![sees(t, &one(x)), sees(u, i), sees(t, k)]);
                }
            }
        }
    }

    /// Rules 11 to 13, 48 and 49: the new write comes behind all others.
    fn by_swap(&mut self, w: &Written, news: &[New], out: &mut Vec<Vec<A>>) {
        let (t, x, u) = (w.at.thread, w.x, w.u);
        let till: I = covered_till_last(x).into();
        let own = |(v, known): &New| (v.clone(), [vec![sees(t, &till)], known.clone()].concat());
        let mut ways: Vec<New> = news.iter().map(own).collect();
        ways.extend(self.sums(w));
        for (value, known) in &ways {
            let new = one_eq(x, value);
            if u == t && self.includes(&new, w.j) {
                out.push(known.clone());
            } else if self.includes(&chop(&cov(x), &new), w.j) {
                out.push([known.clone(), vec![sees(u, &till)]].concat());
            }
        }
        if self.includes(&chop(&cov(x), &one(x)), w.j) {
            out.push(vec![sees(t, &till), sees(u, &till)]);
        }
        for k in &ends(w) {
            if self.includes(&chop(&cov(x), &chop(&unsync(x), k)), w.j) {
                out.push(vec![sees(t, &till), sees(u, &till), sees(t, k)]);
            }
        }
    }

    /// What a fetch-add writes, for each value that it may find.
    fn sums(&self, w: &Written) -> Vec<New> {
        let Some((k, known)) = self.settled_value(w).filter(|_| w.adds) else { return vec![] };
        let range = self.program.header.counts.range;
        let of = |v: u8| {
            let last = sees(w.at.thread, &chop(&cov(w.x), &one_eq(w.x, &constant(v))));
            (constant((v + k) % range), [vec![last], known.clone()].concat())
        };
        self.sample.word_values(w.x).into_iter().map(of).collect()
    }

    /// A register with several values is written: for each of them a way, or it is not that value.
    fn by_values(&mut self, w: &Written) -> Vec<Way> {
        if matches!(*w.operand, Value::Constant(_)) {
            return vec![];
        }
        let values = self.sample.values_at((w.at.thread, w.at.point), &w.operand);
        if values.len() < 2 || values.len() > MOST_VALUES {
            return vec![];
        }
        let among: Vec<A> =
            values.iter().map(|v| holds(&equal(&w.operand, &constant(*v)))).collect();
        let mut combined: Vec<Way> = vec![vec![among]];
        for v in &values {
            let mut ways = self.of_news(w, &[(constant(*v), vec![])]);
            ways.push(vec![]);
            let other = holds(&not(&equal(&w.operand, &constant(*v))));
            let mut next = Vec::new();
            for (done, way) in combined.iter().flat_map(|d| ways.iter().map(move |w| (d, w))) {
                let mut more = done.clone();
                match way.is_empty() {
                    true => more.push(vec![other.clone()]),
                    false => more.extend(way.iter().map(|a| vec![other.clone(), a.clone()])),
                }
                next.push(unique(more));
            }
            next.truncate(MOST_COMBINED);
            combined = next;
        }
        combined
    }
}

/// Ends of the view that do not name the word: what a release brings.
fn ends(w: &Written) -> Vec<I> {
    let mut ends: Vec<I> = cuts(w.j).into_iter().map(|cut| cut.1).collect();
    ends.push(w.j.clone());
    ends.retain(|k| !k.has_word(w.x));
    ends
}

/// Rule 9: a test that the new value passes, too.
fn by_rule_9(w: &Written, news: &[New], out: &mut Vec<Vec<A>>) {
    let Some(e) = w.j.as_all() else { return };
    for (value, known) in news {
        let after = all(&replaced(e, Value::Word(w.x), value));
        out.push([vec![sees(w.u, w.j), sees(w.u, &after)], known.clone()].concat());
    }
}
