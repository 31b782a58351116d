//! An assertion with more leaves than a truth table takes: which they are, and what would bring them down.

use crate::search::implication::conjuncts;
use crate::search::prover::Prover;
use crate::search::wording::with_normal_leaves;
use crate::terms::*;
use reference::checker::rules::table::{Leaves, MOST_LEAVES};
use reference::formula::{Assertion, Formula, Test};

/// A change of an assertion that leaves it with the same meaning and fewer leaves.
struct Shorter {
    /// What stands there.
    parts: Vec<A>,
    /// What may stand there instead.
    instead: A,
}

impl Prover<'_> {
    /// The leaves of an assertion that has too many, and ways to fewer.
    pub fn tell_leaves(&mut self, p: &A) {
        let all = count(p);
        self.tried.push(format!(
            "tried        nothing: there are {all} leaves, and rule 20 takes {MOST_LEAVES}"
        ));
        let Leaves(leaves) = Leaves::of(p);
        for (n, leaf) in leaves.iter().enumerate() {
            let text = match leaf {
                Formula::Assertion(a) => self.names.assertion(a),
                Formula::Test(e) => self.names.assertion(&holds(e)),
                Formula::Value(_) | Formula::Interval(_) => unreachable!("no leaf of an assertion"),
            };
            self.tried.push(format!("  {:<10} {text}", if n == 0 { "leaves" } else { "" }));
        }
        let one = with_normal_leaves(p);
        if count(&one) < all {
            let then = count(&one);
            self.tried.push(format!(
                "  as one     equal tests that stand here in two wordings: then {then} of {MOST_LEAVES}"
            ));
        }
        let mut left = conjuncts(&one);
        for shorter in shorter_forms(&left) {
            left.retain(|part| !shorter.parts.contains(part));
            left.push(shorter.instead.clone());
            let then = fold_right(&left, both).map_or(0, |p| count(&p));
            let text = self.names.assertion(&shorter.instead);
            self.tried.push(format!("  as one     {text}: then {then} of {MOST_LEAVES}"));
        }
        let fewest = fold_right(&left, both).map_or(0, |p| count(&p));
        if fewest > MOST_LEAVES {
            let more = fewest - MOST_LEAVES;
            self.tried.push(format!(
                "  and        {more} more of them would have to go from these two points"
            ));
        }
    }
}

fn count(p: &A) -> usize {
    let Leaves(leaves) = Leaves::of(p);
    leaves.len()
}

/// What each thread sees, in one view; and the tests of registers, in a view.
fn shorter_forms(parts: &[A]) -> Vec<Shorter> {
    let mut found = Vec::new();
    let threads = unique(parts.iter().filter_map(|a| a.as_sees()).map(|(u, _)| u));
    for u in threads {
        let views: Vec<A> =
            parts.iter().filter(|a| a.as_sees().is_some_and(|(v, _)| v == u)).cloned().collect();
        let intervals: Vec<I> =
            views.iter().filter_map(|a| a.as_sees()).map(|(_, i)| i.clone()).collect();
        if let (true, Some(whole)) = (views.len() > 1, fold_right(&intervals, both)) {
            found.push(Shorter { parts: views, instead: sees(u, &whole) });
        }
    }
    let u = parts.iter().find_map(|a| a.as_sees()).map_or(1, |(u, _)| u);
    let tests: Vec<A> = parts.iter().filter(|part| as_test(part).is_some()).cloned().collect();
    let joined: Vec<T> = tests.iter().filter_map(as_test).collect();
    let whole = fold_right(&tests, both).map_or(0, |p| count(&p));
    if let (true, Some(e)) = (whole > 1, fold_right(&joined, and)) {
        found.push(Shorter { parts: tests, instead: sees(u, &all(&e)) });
    }
    found
}

/// An assertion about registers alone, as one test.
fn as_test(a: &A) -> Option<T> {
    match &**a {
        Assertion::Holds(e) => Some(e.clone()),
        Assertion::Both(p, q) => Some(Test::and(as_test(p)?, as_test(q)?).into()),
        Assertion::Either(p, q) => Some(Test::or(as_test(p)?, as_test(q)?).into()),
        Assertion::Sees(..) | Assertion::Start => None,
    }
}

#[cfg(test)]
mod tests {
    use super::*;

    #[test]
    fn views_of_one_thread_are_one_leaf_together_and_so_are_tests() {
        let is = |r: u8, v: u8| holds(&equal(&register(r), &constant(v)));
        let seen = |v: u8| sees(2, &all(&equal(&word(1), &constant(v))));
        let parts = [seen(0), either(&is(1, 0), &is(2, 1)), seen(1)];
        let found = shorter_forms(&parts);
        assert_eq!(found.len(), 2);
        assert_eq!(found[0].parts, [seen(0), seen(1)]);
        assert!(found.iter().all(|shorter| count(&shorter.instead) == 1));
    }
}
