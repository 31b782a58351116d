//! Rules 6 to 9, 11 and 48: writes.

use super::*;

impl List {
    /// Rules 6, 11 and 48.
    pub(super) fn settled(&mut self) {
        for operation in [3, 4, 5, 7, 8] {
            for (rule, before) in [(6, one(X)), (11, last_uncovered()), (48, last_uncovered())] {
                self.settled_by(rule, operation, before);
            }
        }
    }

    fn settled_by(&mut self, rule: u8, operation: u8, before: Interval) {
        let after = || settled(operation);
        let equation = |a: Value, b: Value| Interval::both(one(X), all(is(a, b)));
        let reversed = equation(written(operation), word(X));
        let exchanged = Interval::both(all(is(word(X), written(operation))), one(X));
        let mut same_value = Value::sum(constant(1), register(2));
        if operation == 8 {
            same_value = Value::sum(register(1), same_value);
        }
        let before = |thread| sees(thread, before.clone());
        let rows = [
            ("as it is", before(T), sees(T, after())),
            ("another thread", before(U), sees(U, after())),
            ("another thread left", before(U), sees(T, after())),
            ("another thread right", before(T), sees(U, after())),
            ("equation reversed", before(T), sees(T, reversed)),
            ("equal value, other bytes", before(T), sees(T, equation(word(X), same_value))),
            ("parts exchanged", before(T), sees(T, exchanged)),
            ("another word", sees(T, one(Y)), sees(T, after())),
            ("one alone", before(T), sees(T, one(X))),
        ];
        self.triples(rule, operation, rows);
    }

    /// Rule 7: the observer may be the actor.
    pub(super) fn seen_store(&mut self) {
        for operation in [3, 4, 5, 7, 8] {
            let settled = || settled(operation);
            for u in [T, U] {
                for (role, i) in roles(X) {
                    let left = Assertion::both(sees(T, one(X)), sees(u, i.clone()));
                    let right = sees(u, Interval::chop(i, settled()));
                    let label = format!("observer {u}, word 1 as {role} in I");
                    self.triple(&label, 7, operation, left, right);
                }
            }
            let i = || all(is(word(Y), constant(0)));
            let right = || sees(U, Interval::chop(i(), settled()));
            let left = |a: Assertion, b: Assertion| Assertion::both(a, b);
            let add = [
                ("the actor is another", left(sees(U, one(X)), sees(U, i())), right()),
                ("another word is last", left(sees(T, one(Y)), sees(U, i())), right()),
                ("parts exchanged", left(sees(U, i()), sees(T, one(X))), right()),
                ("another observer", left(sees(T, one(X)), sees(T, i())), right()),
                ("another interval", left(sees(T, one(X)), sees(U, one(3))), right()),
                (
                    "chop exchanged",
                    left(sees(T, one(X)), sees(U, i())),
                    sees(U, Interval::chop(settled(), i())),
                ),
            ];
            for (label, left, right) in add {
                self.triple(label, 7, operation, left, right);
            }
        }
    }

    /// Rule 8: x absent from J in every role; J is what the actor sees.
    pub(super) fn released(&mut self) {
        let left = |u, i: Interval, v, j: Interval| {
            Assertion::both(sees(T, one(X)), Assertion::both(sees(u, i), sees(v, j)))
        };
        let right = |u, i: Interval, flag, j: Interval| {
            sees(u, Interval::chop(i, Interval::chop(all(flag), j)))
        };
        let i = || all(is(word(X), constant(0)));
        for operation in [3, 4, 5, 7] {
            for u in [T, U] {
                for number in [X, Y] {
                    for (role, j) in roles(number) {
                        let label = format!("observer {u}, word {number} as {role} in J");
                        let after = right(u, i(), Test::Unsync(X), j.clone());
                        self.triple(&label, 8, operation, left(u, i(), T, j), after);
                    }
                }
            }
            let after = || right(U, i(), Test::Unsync(X), one(Y));
            self.triple("J of the observer", 8, operation, left(U, i(), U, one(Y)), after());
            self.triple("I of the actor", 8, operation, left(T, i(), T, one(Y)), after());
            let cov = right(U, i(), Test::Covered(X), one(Y));
            self.triple("cov for unsync", 8, operation, left(U, i(), T, one(Y)), cov);
            let other = right(U, i(), Test::Unsync(Y), one(Y));
            self.triple("unsync of another word", 8, operation, left(U, i(), T, one(Y)), other);
            let left_chops = Interval::chop(Interval::chop(i(), all(Test::Unsync(X))), one(Y));
            self.triple(
                "chops to the left",
                8,
                operation,
                left(U, i(), T, one(Y)),
                sees(U, left_chops),
            );
        }
    }

    /// Rule 9: E lacks unsync x and cov x; the word's value is replaced.
    pub(super) fn stable(&mut self) {
        for operation in [2, 3, 4, 5, 7, 8] {
            self.replaced(operation);
            self.flagged(operation);
        }
    }

    fn replaced(&mut self, operation: u8) {
        let left = |u, a: Test, v, b: Test| Assertion::both(sees(u, all(a)), sees(v, all(b)));
        let (before, after) = (|| e(word(X), word(X)), || e(f(), f()));
        let kept = |u| sees(u, all(before()));
        let rows = [
            ("observer 1", left(T, before(), T, after()), kept(T)),
            ("observer 2", left(U, before(), U, after()), kept(U)),
            ("half replaced", left(U, before(), U, e(f(), word(X))), kept(U)),
            ("not replaced", left(U, before(), U, before()), kept(U)),
            ("parts exchanged", left(U, after(), U, before()), kept(U)),
            ("another thread", left(U, before(), T, after()), kept(U)),
            ("another thread first", left(T, before(), U, after()), kept(U)),
        ];
        self.triples(9, operation, rows);
    }

    fn flagged(&mut self, operation: u8) {
        for number in [X, Y] {
            for (name, flag) in [("unsync", Test::Unsync(number)), ("cov", Test::Covered(number))] {
                let with = |a: Value| {
                    let test = Test::and(e(a.clone(), a), Test::negated(flag.clone()));
                    sees(U, all(test))
                };
                let left = Assertion::both(with(word(X)), with(f()));
                let label = format!("E has {name} {number}");
                self.triple(&label, 9, operation, left, with(word(X)));
            }
        }
    }
}

/// The value that is stored.
fn f() -> Value {
    Value::clone(&value())
}

/// A test about two values.
fn e(a: Value, b: Value) -> Test {
    Test::or(is(a, constant(3)), Test::less(b, register(2)))
}
