//! Rule 20: what truth tables decide.

use super::*;
use reference::proof::seen;

fn p() -> Assertion {
    sees(T, one(1))
}

fn q() -> Assertion {
    sees(U, one(1))
}

/// An equation of registers, and the same one reversed.
fn e() -> Test {
    is(register(1), register(2))
}

fn reversed() -> Test {
    is(register(2), register(1))
}

fn both(a: Assertion, b: Assertion) -> Assertion {
    Assertion::both(a, b)
}

fn either(a: Assertion, b: Assertion) -> Assertion {
    Assertion::either(a, b)
}

impl List {
    pub(super) fn table(&mut self) {
        self.connectives();
        self.leaves();
        self.premises_of_table();
    }

    fn connectives(&mut self) {
        let (and, or) = (|| Test::and(e(), reversed()), || Test::or(e(), reversed()));
        let negated = || holds(Test::negated(e()));
        let rows = [
            ("both gives a part", both(p(), q()), q()),
            ("either gives no part", either(p(), q()), q()),
            ("a part gives either", p(), either(q(), p())),
            ("a part gives not both", p(), both(p(), q())),
            ("excluded middle", Assertion::truth(), either(holds(e()), negated())),
            ("contradiction", both(holds(e()), negated()), q()),
            ("and under holds", holds(and()), both(holds(reversed()), holds(e()))),
            ("or under holds", either(holds(reversed()), holds(e())), holds(or())),
            ("or is not and", holds(or()), holds(and())),
            ("false is false", holds(Test::False), p()),
            ("nothing gives false", p(), holds(Test::False)),
        ];
        self.implications(20, rows);
    }

    fn leaves(&mut self) {
        let never = holds(Test::less(register(1), register(1)));
        let constants = holds(is(constant(1), constant(1)));
        let start = || Assertion::Start;
        let rows = [
            ("threads tell leaves apart", p(), q()),
            ("leaves are compared by bytes", holds(e()), holds(reversed())),
            ("less is a leaf", never, holds(Test::False)),
            ("start is a leaf", start(), p()),
            ("start gives start", both(p(), start()), either(q(), start())),
            ("an equation of constants is a leaf", Assertion::truth(), constants),
            ("inside sees nothing is known", Assertion::truth(), sees(T, all(Test::truth()))),
        ];
        self.implications(20, rows);
    }

    /// The premise: t sees both(one 2, one 1) to t sees one 2.
    fn premises_of_table(&mut self) {
        let whole = Interval::both(one(2), one(1));
        let premise = seen(T, &included(39, whole.clone(), one(2), &[]));
        let (left, right) = (|| sees(T, whole.clone()), || sees(T, one(2)));
        for (label, left, right, premises) in [
            ("a premise is used", left(), right(), vec![&premise]),
            ("a premise is needed", left(), right(), vec![]),
            ("a premise is not turned round", right(), left(), vec![&premise]),
            ("a premise whose left side is unknown", sees(U, one(3)), right(), vec![&premise]),
            ("a premise named twice", left(), right(), vec![&premise; 2]),
            ("a premise named four times", left(), right(), vec![&premise; 4]),
        ] {
            self.add(format!("rule 20: {label}"), 3, &implies(20, left, right, &premises));
        }
    }
}
