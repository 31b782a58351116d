//! Rules 48 and 49: what the word has afterwards, and nothing else.

use super::*;

impl List {
    pub(super) fn fetches(&mut self) {
        let f = || Value::clone(&value());
        for operation in [5, 7, 8] {
            for (label, written) in [
                ("f", f()),
                ("register + f", Value::sum(register(1), f())),
                ("f + register", Value::sum(f(), register(1))),
                ("word + f", Value::sum(word(X), f())),
                ("another register + f", Value::sum(register(2), f())),
                ("the register", register(1)),
            ] {
                let after = Interval::both(one(X), all(is(word(X), written)));
                let known = sees(T, last_uncovered());
                let label = format!("word 1 has {label}");
                self.triple(&label, 48, operation, known.clone(), sees(T, after.clone()));
                let seen = sees(U, Interval::chop(all(Test::Covered(X)), after));
                let left = Assertion::both(known, sees(U, last_uncovered()));
                self.triple(&label, 49, operation, left, seen);
            }
        }
    }
}
