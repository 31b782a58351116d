//! Rule 50, and rule 2 for two assignments at once.
//!
//! Pairs store or swap r2 + 1 into word 1 and note r2 := r1; two assignments at once are r1 := r2 + 1, r2 := r1.

use super::*;

const PAIRS: [u8; 3] = [9, 10, 11];

/// A premise by rule 1 that keeps an assertion.
fn keeping(kept: &Assertion) -> Lemma {
    triple(1, PLACE, kept.clone(), kept.clone(), &[])
}

/// r2 + 1
fn f() -> Value {
    Value::clone(&value())
}

fn less(a: Value, b: Value) -> Assertion {
    holds(Test::less(a, b))
}

impl List {
    pub(super) fn pairs(&mut self) {
        for operation in PAIRS {
            self.noted(operation);
            self.left_sides(operation);
            self.after_rules(operation);
        }
        self.trade();
    }

    /// From what the first half keeps, by rule 1, to the right side.
    fn whole(&mut self, label: &str, operation: u8, kept: &Assertion, right: Assertion) {
        let line = triple(50, PLACE, kept.clone(), right, &[&keeping(kept)]);
        self.add(format!("rule 50: {label}, operation {operation}"), operation, &line);
    }

    /// The right side with r2 replaced by r1 is what the premise has.
    fn noted(&mut self, operation: u8) {
        let equal = |a: Value| holds(is(a, constant(3)));
        let seen = |a: Value| sees(U, all(Test::less(word(Y), a)));
        let joined = |a: Value, b: Value| Assertion::either(equal(a), seen(b));
        let old = || register(2);
        let new = || register(1);
        let flags =
            || sees(U, Interval::both(one(Y), all(Test::and(Test::Unsync(Y), Test::Covered(Y)))));
        let words = || sees(U, all(is(word(Y), constant(2))));
        for (label, kept, right) in [
            ("the formula for the register", equal(new()), equal(old())),
            ("under sees", seen(new()), seen(old())),
            ("every occurrence", joined(new(), new()), joined(old(), old())),
            ("not under holds", joined(old(), new()), joined(old(), old())),
            ("not under sees", joined(new(), old()), joined(old(), old())),
            ("nothing replaced", equal(old()), equal(old())),
            ("another register", equal(new()), equal(register(3))),
            ("the register for the formula", equal(old()), equal(new())),
            ("the register of the formula stays", equal(new()), equal(new())),
            ("registers that are not named", equal(register(4)), equal(register(4))),
            ("both registers", less(new(), new()), less(new(), old())),
            ("the registers exchanged", less(old(), new()), less(new(), old())),
            ("in a sum", holds(is(sum(new()), constant(1))), holds(is(sum(old()), constant(1)))),
            ("one, unsync and cov of word 2 stay", flags(), flags()),
            ("word 2 is not register 2", words(), words()),
        ] {
            self.whole(label, operation, &kept, right);
        }
    }

    /// The left side is the premise's.
    fn left_sides(&mut self, operation: u8) {
        let (before, after) =
            (holds(is(register(1), constant(3))), holds(is(register(2), constant(3))));
        let premise = keeping(&before);
        let other = Assertion::both(before.clone(), before.clone());
        for (label, left) in [
            ("another left side", other),
            ("the left side replaced too", after.clone()),
            ("a left side that is never true", holds(Test::False)),
        ] {
            let line = triple(50, PLACE, left, after.clone(), &[&premise]);
            self.add(format!("rule 50: {label}, operation {operation}"), operation, &line);
        }
    }

    /// What rules for writes say of the first half: f is r2 + 1, and r2 is its old value.
    fn after_rules(&mut self, operation: u8) {
        let equation = |value: Value| Interval::both(one(X), all(is(word(X), value)));
        for (rule, before) in [(6, one(X)), (11, last_uncovered())] {
            let left = || sees(T, before.clone());
            let right = |value: Value| sees(T, equation(value));
            let premise = triple(rule, PLACE, left(), right(f()), &[]);
            for (label, value) in [
                ("f with the old register", f()),
                ("f with the new value", Value::sum(register(1), constant(1))),
                ("the noted value", register(1)),
            ] {
                let line = triple(50, PLACE, left(), right(value), &[&premise]);
                let label = format!("rule 50: behind rule {rule}, {label}, operation {operation}");
                self.add(label, operation, &line);
            }
        }
    }

    /// Rule 2 replaces r1 and r2 at once.
    fn trade(&mut self) {
        let right = || less(register(1), register(2));
        let plus_one = |value: Value| Value::sum(value, constant(1));
        let rows = [
            ("both at once", less(f(), register(1)), right()),
            ("the first, then the second", less(plus_one(register(1)), register(1)), right()),
            ("the second, then the first", less(f(), f()), right()),
            ("the first alone", less(f(), register(2)), right()),
            ("the second alone", less(register(1), register(1)), right()),
            ("nothing replaced", right(), right()),
            ("the sides exchanged", right(), less(f(), register(1))),
            ("other registers", less(register(3), register(4)), less(register(3), register(4))),
        ];
        self.triples(2, 12, rows);
        let seen = |a: Value, b: Value| sees(U, all(Test::and(is(word(X), a), is(word(Y), b))));
        let rows = [
            ("under sees, both at once", seen(f(), register(1)), seen(register(1), register(2))),
            ("under sees, one alone", seen(f(), register(2)), seen(register(1), register(2))),
        ];
        self.triples(2, 12, rows);
        self.same("rule 1 is not for two assignments", 12, Assertion::truth());
    }
}
