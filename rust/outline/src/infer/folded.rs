//! Formulas in which sums of numbers are worked out.

use crate::terms::*;
use reference::formula::evaluate::sum as modular;
use reference::formula::{Assertion, Interval, Test, Value};

pub fn value(v: &V, range: u8) -> V {
    match &**v {
        Value::Sum(a, b) => match (&*value(a, range), &*value(b, range)) {
            (Value::Constant(a), Value::Constant(b)) if *a < range && *b < range => {
                constant(modular(*a, *b, range))
            }
            (a, b) => sum(&a.clone().into(), &b.clone().into()),
        },
        _ => v.clone(),
    }
}

fn test(e: &T, range: u8) -> T {
    match &**e {
        Test::Equal(a, b) => equal(&value(a, range), &value(b, range)),
        Test::Less(a, b) => less(&value(a, range), &value(b, range)),
        Test::Not(a) => not(&test(a, range)),
        Test::And(a, b) => and(&test(a, range), &test(b, range)),
        Test::Or(a, b) => or(&test(a, range), &test(b, range)),
        Test::False | Test::Unsync(_) | Test::Covered(_) => e.clone(),
    }
}

fn interval(i: &I, range: u8) -> I {
    match &**i {
        Interval::All(e) => all(&test(e, range)),
        Interval::One(_) => i.clone(),
        Interval::Chop(a, b) => chop(&interval(a, range), &interval(b, range)),
        Interval::Both(a, b) => both(&interval(a, range), &interval(b, range)),
        Interval::Either(a, b) => either(&interval(a, range), &interval(b, range)),
    }
}

pub fn assertion(a: &A, range: u8) -> A {
    match &**a {
        Assertion::Sees(u, i) => sees(*u, &interval(i, range)),
        Assertion::Holds(e) => holds(&test(e, range)),
        Assertion::Both(p, q) => both(&assertion(p, range), &assertion(q, range)),
        Assertion::Either(p, q) => either(&assertion(p, range), &assertion(q, range)),
        Assertion::Start => a.clone(),
    }
}

#[cfg(test)]
mod tests {
    use super::*;

    #[test]
    fn sums_are_worked_out_within_the_range() {
        let told = |v: u8, w: u8| holds(&equal(&register(1), &sum(&constant(v), &constant(w))));
        let plain = |v: u8| holds(&equal(&register(1), &constant(v)));
        assert_eq!(assertion(&told(2, 3), 8), plain(5));
        assert_eq!(assertion(&told(6, 3), 8), plain(1));
        let open = holds(&equal(&sum(&word(1), &constant(3)), &constant(4)));
        assert_eq!(assertion(&open, 8), open);
    }
}
