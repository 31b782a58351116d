//! Rules 12, 13 and 49: swaps, exchange and fetch-add.

use super::*;

fn covered() -> Interval {
    all(Test::Covered(X))
}

/// What an observer sees after a swap that passes on J.
fn passed_on(observer: u8, j: Interval) -> Assertion {
    let behind = Interval::chop(all(Test::Unsync(X)), j);
    sees(observer, Interval::chop(covered(), behind))
}

/// The left side of rule 13.
fn known(actor: Assertion, observer: Assertion, j: Assertion) -> Assertion {
    Assertion::both(actor, Assertion::both(observer, j))
}

impl List {
    pub(super) fn swaps(&mut self) {
        for operation in [4, 5, 7, 8] {
            self.seen_swap(12, operation);
            self.seen_swap(49, operation);
            self.released_swap(operation);
        }
    }

    fn seen_swap(&mut self, rule: u8, operation: u8) {
        let c = |thread| sees(thread, last_uncovered());
        let right = |thread| sees(thread, Interval::chop(covered(), settled(operation)));
        let rows = [
            ("observer 1", Assertion::both(c(T), c(T)), right(T)),
            ("observer 2", Assertion::both(c(T), c(U)), right(U)),
            ("actor sees one only", Assertion::both(sees(T, one(X)), c(U)), right(U)),
            ("observer sees one only", Assertion::both(c(T), sees(U, one(X))), right(U)),
            ("another actor", Assertion::both(c(U), c(U)), right(U)),
            ("another observer", Assertion::both(c(T), c(T)), right(U)),
        ];
        self.triples(rule, operation, rows);
    }

    fn released_swap(&mut self, operation: u8) {
        let c = |thread| sees(thread, last_uncovered());
        for u in [T, U] {
            for number in [X, Y] {
                for (role, j) in roles(number) {
                    let left = known(c(T), c(u), sees(T, j.clone()));
                    let label = format!("observer {u}, word {number} as {role} in J");
                    self.triple(&label, 13, operation, left, passed_on(u, j));
                }
            }
        }
        let j = || sees(T, one(Y));
        let right = || passed_on(U, one(Y));
        let rows = [
            ("actor sees one only", known(sees(T, one(X)), c(U), j()), right()),
            ("observer sees one only", known(c(T), sees(U, one(X)), j()), right()),
            ("J of the observer", known(c(T), c(U), sees(U, one(Y))), right()),
            ("another actor", known(c(U), c(U), j()), right()),
        ];
        self.triples(13, operation, rows);
        for number in [1, 2, 4] {
            let j = || all(is(sum(register(number)), word(Y)));
            let left = known(c(T), c(U), sees(T, j()));
            let label = format!("register {number} in J");
            self.triple(&label, 13, operation, left, passed_on(U, j()));
        }
    }
}
