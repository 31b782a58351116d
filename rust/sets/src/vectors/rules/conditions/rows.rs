//! Rules 21, 23, 24 and 30: what rows decide.

use super::*;

/// Pairs of tests about registers 1 and 4; the first implies the second or not.
fn pairs() -> [(&'static str, Test, Test); 13] {
    let (r, s) = (|| register(1), || register(4));
    let next = || Value::sum(r(), constant(1));
    let not = |test| Test::negated(test);
    [
        ("sums are modulo 8", is(r(), constant(7)), is(next(), constant(0))),
        ("a sum is not any value", is(r(), constant(7)), is(next(), s())),
        ("equality is symmetric", is(r(), s()), is(s(), r())),
        ("less is not symmetric", Test::less(r(), s()), Test::less(s(), r())),
        ("less excludes equal", Test::less(r(), s()), not(is(r(), s()))),
        ("not less allows equal", not(Test::less(r(), s())), Test::less(s(), r())),
        ("no value below 0", Test::truth(), not(Test::less(r(), constant(0)))),
        ("no value above 7", Test::truth(), not(Test::less(constant(7), r()))),
        ("7 is a value", Test::truth(), Test::less(r(), constant(7))),
        ("0 is a value", Test::truth(), Test::less(constant(0), r())),
        ("false implies all", Test::False, is(r(), s())),
        ("no name, true", is(constant(3), constant(3)), Test::less(constant(1), constant(2))),
        ("no name, false", Test::truth(), is(constant(3), constant(4))),
    ]
}

impl List {
    pub(super) fn rows(&mut self) {
        for (label, left, right) in pairs() {
            self.implication(label, 21, holds(left.clone()), holds(right.clone()));
            self.implication(label, 23, sees(U, all(left.clone())), holds(right.clone()));
            self.implication(label, 24, holds(left.clone()), sees(T, all(right.clone())));
            self.inclusion(label, 30, all(left), all(right));
        }
        let known = Test::or(Test::Covered(2), Test::negated(Test::Covered(2)));
        let (r, w) = (is(register(1), constant(2)), is(word(1), constant(2)));
        for (label, left, right) in [
            ("register 1 is not word 1", all(r), all(w)),
            ("unsync is not cov", all(Test::Unsync(1)), all(Test::Covered(1))),
            ("unsync of two words", all(Test::Unsync(1)), all(Test::Unsync(2))),
            ("a flag is true or false", all(Test::Unsync(3)), all(known)),
            ("one is no test", one(1), all(Test::truth())),
        ] {
            self.inclusion(label, 30, left, right);
        }
        let test = || is(register(1), constant(1));
        self.implication("one is no test", 23, sees(T, one(1)), holds(test()));
        self.implication("sees, not holds", 21, sees(T, all(test())), holds(test()));
        self.implication("holds, not sees", 23, holds(test()), holds(test()));
        self.implication("holds on the right", 24, holds(test()), holds(test()));
    }
}
