//! Equal tests in other words: assertions are brought to one wording before the search and back behind it, leaf by leaf,
//! since a truth table has room for few leaves in two wordings.

use crate::search::prover::{At, Line, Prover};
use crate::terms::*;
use reference::checker::rules::table::{Leaves, MOST_LEAVES};
use reference::checker::rules::MOST_PREMISES;
use reference::formula::{Assertion, Formula, Interval, Test, Value};

/// A leaf and the same in the one wording.
type Reworded = (A, A);

impl Prover<'_> {
    /// {P} c {Q} by the same in one wording, if they have another.
    pub fn triple_in_one_wording(&mut self, at: At, p: &A, q: &A) -> Option<Line> {
        let (left, right) = (wordings(p)?, wordings(q)?);
        if left.len() + right.len() == 2 {
            return None;
        }
        let mut line = self.triple(at, left.last()?, right.last()?)?;
        for step in right.windows(2).rev() {
            let last = self.same_in_words(&step[1], &step[0])?;
            line = self.consequence(at, None, line, Some(last))?;
        }
        for step in left.windows(2).rev() {
            let first = self.same_in_words(&step[0], &step[1])?;
            line = self.consequence(at, Some(first), line, None)?;
        }
        Some(line)
    }

    /// P to Q by the same in one wording, if they have another.
    pub fn implied_in_one_wording(&mut self, p: &A, q: &A) -> Option<Line> {
        let (left, right) = (wordings(p)?, wordings(q)?);
        if left.len() + right.len() == 2 {
            return None;
        }
        let mut line = self.implication(left.last()?, right.last()?)?;
        for step in right.windows(2).rev() {
            let last = self.same_in_words(&step[1], &step[0])?;
            line = self.chain(line, last)?;
        }
        for step in left.windows(2).rev() {
            let first = self.same_in_words(&step[0], &step[1])?;
            line = self.chain(first, line)?;
        }
        Some(line)
    }

    /// From one wording to the next, by what each leaf that differs says of the other.
    fn same_in_words(&mut self, from: &A, to: &A) -> Option<Line> {
        let mut premises = Vec::new();
        let (Leaves(old), Leaves(new)) = (Leaves::of(from), Leaves::of(to));
        for (left, right) in old.iter().flat_map(|l| new.iter().map(move |r| (l, r))) {
            if left == right || as_assertion(left) == as_assertion(right) {
                continue;
            }
            match (left, right) {
                (Formula::Test(e), Formula::Test(f)) if same_test(e, f) => {
                    let (e, f) = sided(e, f);
                    premises.push(self.fact(21, &holds(&e), &holds(&f), &[])?);
                    premises.push(self.fact(21, &holds(&f), &holds(&e), &[])?);
                }
                (Formula::Assertion(a), Formula::Assertion(b)) if normal(a) == normal(b) => {
                    let ((u, i), (_, j)) = (a.as_sees()?, b.as_sees()?);
                    premises.push(self.view_gives_view(u, i, j)?);
                }
                _ => {}
            }
        }
        self.fact(20, from, to, &premises)
    }
}

/// Do two comparisons say the same, or one the opposite of the other?
fn same_test(e: &T, f: &T) -> bool {
    let (one, other) = (normal_test(e), normal_test(f));
    one == other || one == normal_test(&not(&other))
}

/// Two comparisons that say the same, the second negated if it says the opposite.
fn sided(e: &T, f: &T) -> (T, T) {
    match normal_test(e) == normal_test(f) {
        true => (e.clone(), f.clone()),
        false => (e.clone(), not(f)),
    }
}

fn as_assertion(leaf: &Formula) -> Option<A> {
    match leaf {
        Formula::Assertion(a) => Some(a.clone()),
        Formula::Test(e) => Some(holds(e)),
        _ => None,
    }
}

/// The assertion, and wordings of it up to the normal one; from each to the next few leaves differ, so that rule 20 has
/// room for both. None if there is no room.
fn wordings(p: &A) -> Option<Vec<A>> {
    let Leaves(leaves) = Leaves::of(p);
    let mut open: Vec<Reworded> = leaves.iter().filter_map(reworded).collect();
    let mut all = vec![p.clone()];
    while !open.is_empty() {
        let now = all.last()?.clone();
        let (mut next, mut premises, mut later) = (now.clone(), 0, Vec::new());
        for change in open {
            let asks = if change.0.as_holds().is_some() { 2 } else { 1 };
            let changed = with_leaf(&next, &change);
            let fits = room_for(&now, &changed) && premises + asks <= MOST_PREMISES;
            match fits {
                true => (next, premises) = (changed, premises + asks),
                false => later.push(change),
            }
        }
        if next == now {
            return None;
        }
        all.push(next);
        open = later;
    }
    Some(all)
}

/// The assertion with every leaf in the one wording.
pub fn with_normal_leaves(p: &A) -> A {
    let Leaves(leaves) = Leaves::of(p);
    leaves.iter().filter_map(reworded).fold(p.clone(), |p, change| with_leaf(&p, &change))
}

/// Are the leaves of both few enough for a table?
fn room_for(p: &A, q: &A) -> bool {
    let Leaves(leaves) = Leaves::of(&both(p, q));
    leaves.len() <= MOST_LEAVES
}

fn reworded(leaf: &Formula) -> Option<Reworded> {
    let a = as_assertion(leaf)?;
    let n = normal(&a);
    (n != a).then_some((a, n))
}

/// The assertion with one leaf in other words.
fn with_leaf(p: &A, change: &Reworded) -> A {
    if *p == change.0 && p.as_sees().is_some() {
        return change.1.clone();
    }
    match &**p {
        Assertion::Both(a, b) => both(&with_leaf(a, change), &with_leaf(b, change)),
        Assertion::Either(a, b) => either(&with_leaf(a, change), &with_leaf(b, change)),
        Assertion::Holds(e) => match (change.0.as_holds(), change.1.as_holds()) {
            (Some(from), Some(to)) => holds(&with_comparison(e, from, to)),
            _ => p.clone(),
        },
        Assertion::Sees(..) | Assertion::Start => p.clone(),
    }
}

fn with_comparison(e: &T, from: &T, to: &T) -> T {
    match &**e {
        _ if e == from => to.clone(),
        Test::Not(a) => not(&with_comparison(a, from, to)),
        Test::And(a, b) => and(&with_comparison(a, from, to), &with_comparison(b, from, to)),
        Test::Or(a, b) => or(&with_comparison(a, from, to), &with_comparison(b, from, to)),
        _ => e.clone(),
    }
}

/// The leaf in the one wording; another assertion is left as it is.
fn normal(a: &A) -> A {
    match &**a {
        Assertion::Sees(u, i) => sees(*u, &normal_interval(i)),
        Assertion::Holds(e) => holds(&normal_test(e)),
        _ => a.clone(),
    }
}

fn normal_interval(i: &I) -> I {
    match &**i {
        Interval::All(e) => all(&normal_test(e)),
        Interval::One(_) => i.clone(),
        Interval::Chop(a, b) => chop(&normal_interval(a), &normal_interval(b)),
        Interval::Both(a, b) => both(&normal_interval(a), &normal_interval(b)),
        Interval::Either(a, b) => either(&normal_interval(a), &normal_interval(b)),
    }
}

/// Without double negation and repetition; words first and constants last in an equation; `< 1` as `= 0`.
pub fn normal_test(e: &T) -> T {
    match &**e {
        Test::Not(a) => {
            let inner = normal_test(a);
            match &*inner {
                Test::Not(b) => b.clone(),
                _ => not(&inner),
            }
        }
        Test::And(a, b) | Test::Or(a, b) => {
            let (p, q) = (normal_test(a), normal_test(b));
            match &**e {
                _ if p == q => p,
                Test::And(..) => and(&p, &q),
                _ => or(&p, &q),
            }
        }
        Test::Equal(a, b) if rank(a) > rank(b) => equal(b, a),
        Test::Less(a, b) if **b == Value::Constant(1) => normal_test(&equal(a, &constant(0))),
        Test::Less(a, b) if **a == Value::Constant(0) => normal_test(&not(&equal(b, &constant(0)))),
        _ => e.clone(),
    }
}

/// Where a value stands in an equation: the rules write `x = f`.
fn rank(value: &V) -> (u8, u8) {
    match **value {
        Value::Word(x) => (0, x),
        Value::Register(r) => (1, r),
        Value::Sum(..) => (2, 0),
        Value::Constant(c) => (3, c),
    }
}

#[cfg(test)]
mod tests {
    use super::*;

    #[test]
    fn tests_that_say_the_same_have_one_wording() {
        let (x, zero, one) = (word(1), constant(0), constant(1));
        let same = equal(&x, &zero);
        for e in [equal(&zero, &x), less(&x, &one), not(&not(&same)), and(&same, &same)] {
            assert_eq!(normal_test(&e), same, "{e:?}");
        }
        assert_eq!(normal_test(&less(&zero, &x)), not(&same));
        assert_eq!(normal_test(&not(&less(&x, &one))), not(&same));
    }

    #[test]
    fn ten_leaves_have_no_room_for_other_words_and_nine_have() {
        let leaf = |n: u8| holds(&equal(&constant(n), &register(n)));
        let of = |n: u8| fold_right(&(1..=n).map(leaf).collect::<Vec<A>>(), both).expect("some");
        assert!(wordings(&of(10)).is_none());
        let all = wordings(&of(9)).expect("room");
        assert_eq!(all.len(), 10);
        assert!(all.windows(2).all(|two| room_for(&two[0], &two[1])));
    }
}
