//! Rules 1 and 2: what is kept, and assignment.

use super::*;

impl List {
    /// Rule 1 for loads: the register is absent; the word need not be.
    pub(super) fn kept_by_load(&mut self) {
        for operation in [1, 2] {
            self.kept_registers(operation);
            for (role, interval) in roles(X) {
                self.same(&format!("word 1 as {role} is no matter"), operation, sees(U, interval));
            }
        }
    }

    /// Rule 1 for stores and swaps: the word is absent in every role.
    pub(super) fn kept_by_write(&mut self) {
        for operation in [3, 4, 5] {
            self.kept_words(operation);
            let any_register = holds(is(register(1), register(2)));
            self.same("registers are no matter", operation, any_register);
        }
        self.same("rule 1 is not for assignments", 0, Assertion::truth());
    }

    /// Rule 1 for exchange and fetch-add: the word and the register are absent.
    pub(super) fn kept_by_both(&mut self) {
        for operation in [7, 8] {
            self.kept_words(operation);
            self.kept_registers(operation);
        }
    }

    fn kept_words(&mut self, operation: u8) {
        for number in [X, Y] {
            for (role, interval) in roles(number) {
                let kept = sees(T, interval);
                self.same(&format!("word {number} as {role}"), operation, kept);
            }
        }
        let second = Assertion::either(Assertion::truth(), sees(U, one(X)));
        self.same("word 1 in a second part", operation, second);
    }

    fn kept_registers(&mut self, operation: u8) {
        for number in [1, 2, 4] {
            let under_holds = holds(is(register(number), constant(1)));
            self.same(&format!("register {number} under holds"), operation, under_holds);
            let deep = holds(Test::negated(Test::less(constant(1), sum(register(number)))));
            self.same(&format!("register {number} deep"), operation, deep);
            let seen = sees(U, all(is(word(Y), register(number))));
            self.same(&format!("register {number} under sees"), operation, seen);
        }
        let second = Assertion::both(Assertion::truth(), holds(is(register(1), constant(0))));
        self.same("register 1 in a second part", operation, second);
    }

    /// Rule 2: every occurrence is replaced, under holds and under sees.
    pub(super) fn assignment(&mut self) {
        let after = |a: Value, b: Value| {
            Assertion::either(
                holds(Test::equal(a, constant(3))),
                sees(U, all(Test::less(word(Y), b))),
            )
        };
        let f = || Value::clone(&value());
        let right = || after(register(1), register(1));
        self.triple("every occurrence replaced", 2, 0, after(f(), f()), right());
        self.triple("not replaced under holds", 2, 0, after(register(1), f()), right());
        self.triple("not replaced under sees", 2, 0, after(f(), register(1)), right());
        self.triple("nothing replaced", 2, 0, right(), right());
        self.triple(
            "another register replaced",
            2,
            0,
            after(f(), f()),
            after(register(3), register(1)),
        );
        self.triple("the sides exchanged", 2, 0, right(), after(f(), f()));
        let kept = || after(register(2), register(4));
        self.triple("register absent", 2, 0, kept(), kept());
        let sums = |a: Value| holds(is(sum(a), register(2)));
        self.triple("in a sum", 2, 0, sums(f()), sums(register(1)));
        let flags =
            || sees(U, Interval::both(one(1), all(Test::and(Test::Unsync(1), Test::Covered(1)))));
        self.triple("one, unsync and cov of word 1 stay", 2, 0, flags(), flags());
        let words = || sees(U, all(is(word(1), constant(2))));
        self.triple("word 1 is not register 1", 2, 0, words(), words());
    }
}
