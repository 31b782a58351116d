//! Rules 3, 4, 5 and 10: loads, and what arriving skips.

use super::*;

impl List {
    /// Rules 3, 4 and 47.
    pub(super) fn loads(&mut self) {
        for operation in [1, 2, 7, 8] {
            self.learned(3, operation);
            self.learned(47, operation);
            self.later(operation);
        }
        for rule in [3, 47] {
            for operation in [3, 4, 5] {
                let (left, right) = (is(word(X), constant(3)), is(register(1), constant(3)));
                self.triple("not for this one", rule, operation, sees(T, all(left)), holds(right));
            }
        }
    }

    fn learned(&mut self, rule: u8, operation: u8) {
        let e = |a: Value| Test::or(is(a.clone(), constant(3)), Test::less(a, register(2)));
        let half = Test::or(is(word(X), constant(3)), Test::less(register(1), register(2)));
        let (right, other) = (|| holds(e(register(1))), || e(register(3)));
        let rows = [
            ("word for register", sees(T, all(e(word(X)))), right()),
            ("another word", sees(T, all(e(word(Y)))), right()),
            ("another thread", sees(U, all(e(word(X)))), right()),
            ("half replaced", sees(T, all(half)), right()),
            ("not replaced", sees(T, all(e(register(1)))), right()),
            ("register absent", sees(T, all(other())), holds(other())),
            ("another register", sees(T, all(e(word(X)))), holds(other())),
        ];
        self.triples(rule, operation, rows);
    }

    /// Rule 4 from t sees one y to t sees one y.
    fn later(&mut self, operation: u8) {
        let e = |a: Value| is(a, constant(3));
        let q = |thread| sees(thread, one(Y));
        let left = |thread, test, i| sees(thread, Interval::chop(all(test), i));
        let right = |register_test, q| Assertion::either(holds(register_test), q);
        let (read, kept) = (|| e(word(X)), || e(register(1)));
        let sound = || left(T, read(), one(Y));
        let exchanged = Assertion::either(q(T), holds(kept()));
        let joined = Assertion::both(holds(kept()), q(T));
        for (label, left, right, seer) in [
            ("both parts", sound(), right(kept(), q(T)), T),
            ("another thread", left(U, read(), one(Y)), right(kept(), q(T)), T),
            ("another word", left(T, e(word(Y)), one(Y)), right(kept(), q(T)), T),
            ("another rest", left(T, read(), one(3)), right(kept(), q(T)), T),
            ("another end", sound(), right(kept(), sees(T, one(3))), T),
            ("another register", sound(), right(e(register(2)), q(T)), T),
            ("the parts exchanged", sound(), exchanged, T),
            ("joined by both", sound(), joined, T),
            ("another thread in the premise", sound(), right(kept(), q(U)), U),
            ("another thread throughout", left(U, read(), one(Y)), right(kept(), q(U)), U),
        ] {
            let premise = triple(1, PLACE, q(seer), q(seer), &[]);
            let label = format!("rule 4: {label}, operation {operation}");
            self.add(label, operation, &triple(4, PLACE, left, right, &[&premise]));
        }
    }

    /// Rules 5 and 10.
    pub(super) fn skipped(&mut self) {
        for operation in [1, 2, 3, 4, 5, 7, 8] {
            self.skipping(5, operation, Test::Unsync, Test::Covered);
            self.skipping(10, operation, Test::Covered, Test::Unsync);
        }
    }

    /// The rule from t sees one y to t sees one y, with its flag and a wrong one.
    fn skipping(&mut self, rule: u8, operation: u8, flag: fn(u8) -> Test, wrong: fn(u8) -> Test) {
        let q = |thread| sees(thread, one(Y));
        let left = |thread, flag, i| sees(thread, Interval::chop(all(flag), i));
        for (label, left, right, seer) in [
            ("as it is", left(T, flag(X), one(Y)), q(T), T),
            ("another flag", left(T, wrong(X), one(Y)), q(T), T),
            ("flag of another word", left(T, flag(Y), one(Y)), q(T), T),
            ("another thread", left(U, flag(X), one(Y)), q(T), T),
            ("another rest", left(T, flag(X), one(3)), q(T), T),
            ("another end", left(T, flag(X), one(Y)), sees(T, one(3)), T),
            ("another thread throughout", left(U, flag(X), one(Y)), q(U), U),
            ("another thread in the premise", left(T, flag(X), one(Y)), q(U), U),
        ] {
            let premise = triple(1, PLACE, q(seer), q(seer), &[]);
            let label = format!("rule {rule}: {label}, operation {operation}");
            self.add(label, operation, &triple(rule, PLACE, left, right, &[&premise]));
        }
    }
}
