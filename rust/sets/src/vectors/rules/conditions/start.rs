//! Rules 26 and 27: the start states. The start values are 1, 0 and 2.

use super::*;

/// both(one a, [b = value])
fn initial(a: u8, b: u8, value: u8) -> Interval {
    Interval::both(one(a), all(is(word(b), constant(value))))
}

impl List {
    pub(super) fn start(&mut self) {
        self.start_values();
        self.cleared_registers();
        self.open_registers();
    }

    fn start_values(&mut self) {
        for (number, value) in [(1, 1), (2, 0), (3, 2)] {
            for thread in [T, U] {
                for claimed in [value, value + 1] {
                    let right = sees(thread, initial(number, number, claimed));
                    let label = format!("thread {thread}, word {number} starts at {claimed}");
                    self.implication(&label, 26, Assertion::Start, right);
                }
            }
        }
        let reversed = Interval::both(one(1), all(is(constant(1), word(1))));
        let exchanged = Interval::both(all(is(word(1), constant(1))), one(1));
        let first = sees(T, initial(1, 1, 1));
        self.implication("not from another assertion", 26, Assertion::truth(), first);
        for (label, interval) in [
            ("another word in one", initial(2, 1, 1)),
            ("another word in the test", initial(1, 2, 0)),
            ("equation reversed", reversed),
            ("parts exchanged", exchanged),
        ] {
            self.implication(label, 26, Assertion::Start, sees(T, interval));
        }
    }

    fn cleared_registers(&mut self) {
        for number in 1..=4 {
            let right = holds(is(register(number), constant(0)));
            self.implication(&format!("register {number}"), 27, Assertion::Start, right);
        }
        let cleared = holds(is(register(1), constant(0)));
        self.implication("not from another assertion", 27, Assertion::truth(), cleared);
        for (label, test) in [
            ("another value", is(register(1), constant(1))),
            ("equation reversed", is(constant(0), register(1))),
            ("a constant", is(constant(0), constant(0))),
            ("less for equal", Test::less(register(1), constant(0))),
        ] {
            self.implication(label, 27, Assertion::Start, holds(test));
        }
    }

    /// Each register open, alone and beside others, and what start says of each register then.
    fn open_registers(&mut self) {
        for marks in [[0, 1, 1, 1], [1, 0, 1, 1], [1, 1, 0, 1], [1, 1, 1, 0], [0, 1, 1, 0], [0; 4]]
        {
            for number in 1..=4 {
                let lemma =
                    implies(27, Assertion::Start, holds(is(register(number), constant(0))), &[]);
                let code = if marks[usize::from(number) - 1] == 1 { "accepted" } else { "22" };
                let label = format!("{code}: rule 27: marks {marks:?}, register {number}");
                self.0.push(Case::new(label, image_with_marks(marks, &lemma)));
            }
        }
        let first = implies(26, Assertion::Start, sees(T, initial(1, 1, 1)), &[]);
        let label = "accepted: rule 26: open registers";
        self.0.push(Case::new(label, image_with_marks([0; 4], &first)));
        for value in [0, 1, 7] {
            let lemma = implies(27, Assertion::Start, holds(is(register(1), constant(value))), &[]);
            let label = format!("22: rule 27: open register 1 is {value}");
            self.0.push(Case::new(label, image_with_marks([0, 1, 1, 1], &lemma)));
        }
    }
}
