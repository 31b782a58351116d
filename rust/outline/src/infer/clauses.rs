//! Clauses: disjunctions of literals, which are tests of registers and what a thread sees.

use crate::search::support::expand;
use crate::terms::*;
use reference::formula::{Assertion, Interval, Test};

/// A literal by its number.
pub type Literal = usize;
/// Numbers of literals, in order.
pub type Clause = Vec<Literal>;

/// The test without its negation, or with one.
pub fn negated(e: &T) -> T {
    match &**e {
        Test::Not(inner) => inner.clone(),
        _ => not(e),
    }
}

/// The test of an assertion about registers alone.
pub fn plain(a: &A) -> Option<T> {
    match &**a {
        Assertion::Holds(e) => Some(e.clone()),
        Assertion::Sees(_, i) => i.as_all().filter(|e| registers_only(e.as_ref())).cloned(),
        _ => None,
    }
}

/// Is this `one x & [..]`, which stays one literal?
pub fn is_settled(i: &I) -> bool {
    matches!(&**i, Interval::Both(a, b) if matches!(**a, Interval::One(_)) && b.as_all().is_some())
}

/// The clauses of an assertion, each a list of literals.
pub fn clauses(a: &A) -> Vec<Vec<A>> {
    match &**a {
        Assertion::Both(p, q) => [clauses(p), clauses(q)].concat(),
        Assertion::Either(p, q) => {
            let (left, right) = (clauses(p), clauses(q));
            let joined = |l: &Vec<A>| {
                let l = l.clone();
                right.iter().map(move |r| unique(l.iter().chain(r).cloned())).collect::<Vec<_>>()
            };
            left.iter().flat_map(joined).collect()
        }
        Assertion::Holds(e) => match expand(e) {
            apart if apart != *a => clauses(&apart),
            _ => vec![vec![a.clone()]],
        },
        Assertion::Sees(u, i) => match &**i {
            _ if is_settled(i) => vec![vec![a.clone()]],
            Interval::Both(p, q) => [clauses(&sees(*u, p)), clauses(&sees(*u, q))].concat(),
            Interval::All(e) => view_of_test(*u, e),
            _ => vec![vec![a.clone()]],
        },
        Assertion::Start => vec![vec![a.clone()]],
    }
}

/// The clauses of `u sees [e]`.
fn view_of_test(u: u8, e: &T) -> Vec<Vec<A>> {
    match &**e {
        Test::And(p, q) => [clauses(&sees(u, &all(p))), clauses(&sees(u, &all(q)))].concat(),
        _ if registers_only(e.as_ref()) => clauses(&holds(e)),
        _ => vec![vec![sees(u, &all(e))]],
    }
}

/// How much a literal says: a chain of views says more than one.
pub fn size(a: &A) -> usize {
    fn interval(i: &I) -> usize {
        match &**i {
            Interval::All(_) | Interval::One(_) => 1,
            Interval::Chop(a, b) | Interval::Both(a, b) | Interval::Either(a, b) => {
                1 + interval(a) + interval(b)
            }
        }
    }
    match &**a {
        Assertion::Sees(_, i) => 2 + interval(i),
        _ => 1,
    }
}

#[cfg(test)]
mod tests {
    use super::*;
    use crate::infer::templates::{one_eq, r_eq, x_eq};

    #[test]
    fn an_assertion_is_taken_apart() {
        let (p, q, s) = (r_eq(1, 0), r_eq(2, 0), sees(1, &x_eq(1, 3)));
        let found = clauses(&either(&both(&p, &q), &s));
        assert_eq!(found, vec![vec![p.clone(), s.clone()], vec![q, s]]);
    }

    #[test]
    fn a_view_is_taken_apart_but_for_a_settled_word() {
        let settled = sees(1, &one_eq(1, &constant(2)));
        assert_eq!(clauses(&settled), vec![vec![settled.clone()]]);
        let joined = sees(1, &both(&x_eq(1, 3), &all(&equal(&register(1), &constant(0)))));
        assert_eq!(clauses(&joined), vec![vec![sees(1, &x_eq(1, 3))], vec![r_eq(1, 0)]]);
    }
}
