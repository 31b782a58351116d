//! Rules 22 and 25, and shapes of 33 to 46.

use super::*;

impl List {
    /// Rule 25, and rule 22 over threads.
    pub(super) fn joined(&mut self) {
        let left = |a, b| Assertion::both(sees(a, one(1)), sees(b, one(2)));
        let both = Interval::both(one(1), one(2));
        for (a, b, c) in [(T, T, T), (U, U, U), (T, U, T), (U, T, T), (T, T, U)] {
            let label = format!("threads {a}, {b} to {c}");
            self.implication(&label, 25, left(a, b), sees(c, both.clone()));
        }
        let exchanged = Interval::both(one(2), one(1));
        self.implication("parts exchanged", 25, left(T, T), sees(T, exchanged));
        let chop = Interval::chop(one(1), one(2));
        self.implication("chop for both", 25, left(T, T), sees(T, chop));
        let either = Assertion::either(sees(T, one(1)), sees(T, one(2)));
        self.implication("either on the left", 25, either, sees(T, both.clone()));
        let part = included(39, both.clone(), one(1), &[]);
        for (a, b) in [(T, T), (U, U), (T, U), (U, T)] {
            let lemma = implies(22, sees(a, both.clone()), sees(b, one(1)), &[&part]);
            self.add(format!("rule 22: threads {a} to {b}"), 3, &lemma);
        }
    }

    /// Shapes of the interval rules that a byte's change does not reach.
    pub(super) fn intervals(&mut self) {
        for (rule, label, left, right) in chops() {
            self.inclusion(label, rule, left, right);
        }
        for (rule, label, left, right) in parts() {
            self.inclusion(label, rule, left, right);
        }
        for (rule, label, left, right) in tests() {
            self.inclusion(label, rule, left, right);
        }
    }
}

/// Rule, label, left and right of an inclusion.
type Row = (u8, &'static str, Interval, Interval);

fn chop(a: Interval, b: Interval) -> Interval {
    Interval::chop(a, b)
}

fn both(a: Interval, b: Interval) -> Interval {
    Interval::both(a, b)
}

fn either(a: Interval, b: Interval) -> Interval {
    Interval::either(a, b)
}

/// Rules 33, 34 and 38: chops of three intervals.
fn chops() -> Vec<Row> {
    let (a, b, d) = (|| one(1), || one(2), || one(3));
    let to_left = || chop(chop(a(), b()), d());
    let to_right = || chop(a(), chop(b(), d()));
    let (whole, spread) = (|| both(d(), chop(a(), b())), || chop(both(d(), a()), both(d(), b())));
    vec![
        (33, "as it is", to_left(), to_right()),
        (33, "turned round", to_right(), to_left()),
        (33, "order changed", to_left(), chop(b(), chop(a(), d()))),
        (34, "as it is", to_right(), to_left()),
        (34, "turned round", to_left(), to_right()),
        (34, "order changed", to_right(), chop(chop(a(), d()), b())),
        (38, "as it is", whole(), spread()),
        (38, "turned round", spread(), whole()),
        (38, "K second", both(chop(a(), b()), d()), spread()),
        (38, "K missing in the second", whole(), chop(both(d(), a()), b())),
        (38, "another K in the second", whole(), chop(both(d(), a()), both(a(), b()))),
        (46, "same", to_left(), to_left()),
        (46, "not the same", to_left(), to_right()),
    ]
}

/// Rules 35, 36, 39, 40, 42 and 43: an interval and one of its parts.
fn parts() -> Vec<Row> {
    let (a, b) = (|| one(1), || one(2));
    vec![
        (35, "the first part", a(), chop(a(), b())),
        (35, "the second part", b(), chop(a(), b())),
        (35, "turned round", chop(a(), b()), b()),
        (36, "the first part", a(), chop(a(), b())),
        (36, "the second part", b(), chop(a(), b())),
        (36, "either for chop", a(), either(a(), b())),
        (39, "the left", both(a(), b()), a()),
        (39, "the right", both(a(), b()), b()),
        (39, "of either", either(a(), b()), a()),
        (40, "the left", both(a(), b()), a()),
        (40, "the right", both(a(), b()), b()),
        (40, "of chop", chop(a(), b()), b()),
        (42, "from the left", a(), either(a(), b())),
        (42, "from the right", b(), either(a(), b())),
        (42, "both for either", a(), both(a(), b())),
        (43, "from the left", a(), either(a(), b())),
        (43, "from the right", b(), either(a(), b())),
        (43, "turned round", either(a(), b()), b()),
    ]
}

/// Rules 37 and 45: intervals that are tests.
fn tests() -> Vec<Row> {
    let (x, y) = (|| is(word(1), constant(1)), || Test::Unsync(2));
    let (e, f) = (|| all(x()), || all(y()));
    let and = || all(Test::and(x(), y()));
    vec![
        (37, "as it is", chop(e(), e()), e()),
        (37, "one for a test", chop(one(1), one(1)), one(1)),
        (37, "another test first", chop(f(), e()), e()),
        (37, "another test second", chop(e(), f()), e()),
        (37, "turned round", e(), chop(e(), e())),
        (37, "both for chop", both(e(), e()), e()),
        (45, "as it is", both(e(), f()), and()),
        (45, "order changed", both(e(), f()), all(Test::and(y(), x()))),
        (45, "or for and", both(e(), f()), all(Test::or(x(), y()))),
        (45, "either for both", either(e(), f()), and()),
        (45, "one for a test", both(e(), one(2)), and()),
        (45, "turned round", and(), both(e(), f())),
    ]
}
