//! What occurs in a formula: its leaves that name something, or say "start".

use super::{Assertion, Formula, Interval, Test, Value};

/// A leaf that side conditions speak of. Constants and `false` name nothing.
#[derive(Clone, Copy, Debug, PartialEq, Eq, Hash)]
pub enum Atom {
    Register(u8),
    Word(u8),
    Unsync(u8),
    Covered(u8),
    One(u8),
    Start,
}

impl Atom {
    /// Whether the atom speaks of this word, in any role.
    pub fn concerns_word(self, word: u8) -> bool {
        let roles = [Atom::Word(word), Atom::Unsync(word), Atom::Covered(word), Atom::One(word)];
        roles.contains(&self)
    }
}

/// A tree whose atoms can be listed.
pub trait Atoms {
    /// Visits every atom from the left.
    fn visit_atoms(&self, visit: &mut dyn FnMut(Atom));

    /// Whether some atom passes the test.
    fn has_atom(&self, passes: impl Fn(Atom) -> bool) -> bool
    where
        Self: Sized,
    {
        let mut found = false;
        self.visit_atoms(&mut |atom| found |= passes(atom));
        found
    }

    /// Whether the register occurs.
    fn has_register(&self, register: u8) -> bool
    where
        Self: Sized,
    {
        self.has_atom(|atom| atom == Atom::Register(register))
    }

    /// Whether the word occurs in any role.
    fn has_word(&self, word: u8) -> bool
    where
        Self: Sized,
    {
        self.has_atom(|atom| atom.concerns_word(word))
    }
}

impl Atoms for Value {
    fn visit_atoms(&self, visit: &mut dyn FnMut(Atom)) {
        match self {
            Value::Constant(_) => {}
            Value::Register(number) => visit(Atom::Register(*number)),
            Value::Word(number) => visit(Atom::Word(*number)),
            Value::Sum(a, b) => {
                a.visit_atoms(visit);
                b.visit_atoms(visit);
            }
        }
    }
}

impl Atoms for Test {
    fn visit_atoms(&self, visit: &mut dyn FnMut(Atom)) {
        match self {
            Test::False => {}
            Test::Equal(a, b) | Test::Less(a, b) => {
                a.visit_atoms(visit);
                b.visit_atoms(visit);
            }
            Test::Not(a) => a.visit_atoms(visit),
            Test::And(a, b) | Test::Or(a, b) => {
                a.visit_atoms(visit);
                b.visit_atoms(visit);
            }
            Test::Unsync(word) => visit(Atom::Unsync(*word)),
            Test::Covered(word) => visit(Atom::Covered(*word)),
        }
    }
}

impl Atoms for Interval {
    fn visit_atoms(&self, visit: &mut dyn FnMut(Atom)) {
        match self {
            Interval::All(test) => test.visit_atoms(visit),
            Interval::One(word) => visit(Atom::One(*word)),
            Interval::Chop(a, b) | Interval::Both(a, b) | Interval::Either(a, b) => {
                a.visit_atoms(visit);
                b.visit_atoms(visit);
            }
        }
    }
}

impl Atoms for Assertion {
    fn visit_atoms(&self, visit: &mut dyn FnMut(Atom)) {
        match self {
            Assertion::Sees(_, interval) => interval.visit_atoms(visit),
            Assertion::Both(a, b) | Assertion::Either(a, b) => {
                a.visit_atoms(visit);
                b.visit_atoms(visit);
            }
            Assertion::Start => visit(Atom::Start),
            Assertion::Holds(test) => test.visit_atoms(visit),
        }
    }
}

impl Atoms for Formula {
    fn visit_atoms(&self, visit: &mut dyn FnMut(Atom)) {
        match self {
            Formula::Value(tree) => tree.visit_atoms(visit),
            Formula::Test(tree) => tree.visit_atoms(visit),
            Formula::Interval(tree) => tree.visit_atoms(visit),
            Formula::Assertion(tree) => tree.visit_atoms(visit),
        }
    }
}
