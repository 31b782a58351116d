//! The cases of an assertion: which leaves are true when it is true.

use crate::terms::*;
use reference::checker::rules::table::{Leaves, Proposition, MOST_LEAVES};
use reference::formula::atoms::Atoms;
use reference::formula::{Assertion, Formula, Test};

/// One way for an assertion to be true: the sees leaves it needs, and every comparison's truth.
#[derive(Debug, Clone, Default)]
pub struct Case {
    pub sees: Vec<A>,
    /// Comparisons or their negations, all true in this case.
    pub tests: Vec<T>,
    pub start: bool,
}

impl Case {
    /// The tests that share a register with the formula, as one test.
    pub fn tests_about(&self, tree: &impl Atoms) -> Option<T> {
        let mut wanted = registers_of(tree);
        // Tests reach further registers through each other: r = q links q to r.
        for _ in 0..self.tests.len() {
            for e in &self.tests {
                let own = registers_of(e.as_ref());
                if own.iter().any(|r| wanted.contains(r)) && own.len() + wanted.len() <= 5 {
                    wanted.extend(own);
                }
            }
        }
        let about = |e: &&T| registers_of(e.as_ref()).iter().any(|r| wanted.contains(r));
        let near: Vec<T> = self.tests.iter().filter(about).cloned().collect();
        fold_right(&near, and)
    }

    /// The intervals that thread u sees in this case.
    pub fn seen_by(&self, u: u8) -> Vec<I> {
        let seen = self.sees.iter().filter_map(|a| a.as_sees());
        seen.filter(|(t, _)| *t == u).map(|(_, i)| i.clone()).collect()
    }

    /// Is the assertion true with just this case's leaves? What is not known is neither.
    pub fn satisfies(&self, a: &A) -> bool {
        match &**a {
            Assertion::Sees(..) => self.sees.contains(a),
            Assertion::Both(p, q) => self.satisfies(p) && self.satisfies(q),
            Assertion::Either(p, q) => self.satisfies(p) || self.satisfies(q),
            Assertion::Start => self.start,
            Assertion::Holds(e) => self.decides(e, true),
        }
    }

    /// Does the case alone fix the truth of the test to `want`?
    fn decides(&self, e: &T, want: bool) -> bool {
        let parts = |p, q| (self.decides(p, want), self.decides(q, want));
        match &**e {
            Test::False => !want,
            Test::Not(n) => self.decides(n, !want),
            Test::And(p, q) if want => parts(p, q) == (true, true),
            Test::Or(p, q) if !want => parts(p, q) == (true, true),
            Test::And(p, q) | Test::Or(p, q) => parts(p, q) != (false, false),
            _ => self.tests.contains(&if want { e.clone() } else { not(e) }),
        }
    }
}

/// All cases with as few sees leaves as possible; `None` if there are more than ten leaves.
pub fn cases(p: &A) -> Option<Vec<Case>> {
    let Leaves(leaves) = Leaves::of(p);
    if leaves.len() > MOST_LEAVES {
        return None;
    }
    let (mut marks, mut tests): (Vec<A>, Vec<T>) = (Vec::new(), Vec::new());
    for leaf in leaves {
        match leaf {
            Formula::Test(e) => tests.push(e),
            Formula::Assertion(a) => marks.push(a),
            Formula::Value(_) | Formula::Interval(_) => unreachable!("no leaf of an assertion"),
        }
    }
    let shape = shape(p, &marks, &tests);
    let mut found = Vec::new();
    for row in 0u32..1 << tests.len() {
        for set in least_sets(&shape, marks.len(), row << marks.len()) {
            found.push(case(&marks, set, &tests, row));
        }
    }
    Some(found)
}

/// The assertion over these leaves: the marks have the low bits of a row, the tests those behind.
fn shape(p: &A, marks: &[A], tests: &[T]) -> Proposition {
    let marks = marks.iter().cloned().map(Formula::Assertion);
    let tests = tests.iter().cloned().map(Formula::Test);
    Leaves(marks.chain(tests).collect()).assertion(p)
}

/// The case in which the marks of the set are true, and of the tests just those of the row.
fn case(marks: &[A], set: u32, tests: &[T], row: u32) -> Case {
    let chosen = || (0..).zip(marks).filter(|(bit, _)| set >> bit & 1 == 1).map(|(_, mark)| mark);
    let literal = |(bit, e): (u32, &T)| if row >> bit & 1 == 1 { e.clone() } else { not(e) };
    Case {
        start: chosen().any(|mark| **mark == Assertion::Start),
        sees: chosen().filter(|mark| ***mark != Assertion::Start).cloned().collect(),
        tests: (0..).zip(tests).map(literal).collect(),
    }
}

/// The least sets of the first `marks` leaves that make the shape true with these tests true.
fn least_sets(shape: &Proposition, marks: usize, true_tests: u32) -> Vec<u32> {
    let mut least: Vec<u32> = Vec::new();
    let mut sets: Vec<u32> = (0..1u32 << marks).collect();
    sets.sort_by_key(|s| s.count_ones());
    for set in sets {
        if !least.iter().any(|l| l & set == *l) && shape.is_true(set | true_tests) {
            least.push(set);
        }
    }
    least
}

#[cfg(test)]
mod tests {
    use super::*;
    use reference::formula::Interval;

    #[test]
    fn a_disjunction_has_a_case_for_each_side() {
        let a = holds(&not(&equal(&register(1), &constant(1))));
        let s = sees(1, &Interval::One(1).into());
        let list = cases(&either(&a, &s)).unwrap();
        assert_eq!(list.len(), 2);
        assert!(list[0].sees.is_empty() && list[1].sees == [s]);
    }

    #[test]
    fn what_is_unknown_is_neither_true_nor_false() {
        let e = equal(&register(1), &constant(1));
        let nothing = Case::default();
        assert!(!nothing.satisfies(&holds(&e)) && !nothing.satisfies(&holds(&not(&e))));
        let known = Case { tests: vec![not(&e)], ..Case::default() };
        assert!(known.satisfies(&holds(&not(&e))));
        assert!(known.satisfies(&holds(&not(&and(&e, &truth())))));
    }
}
