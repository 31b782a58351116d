//! "By rows": one test implies another under every choice for their names.

use super::Fit;
use crate::formula::atoms::{Atom, Atoms};
use crate::formula::evaluate::Environment;
use crate::formula::Test;

/// More rows than this make a line unjustified.
pub const MOST_ROWS: usize = 4096;

/// Whether the right test is true in every row in which the left one is; rows have values of this range.
pub fn implies_by_rows(left: &Test, right: &Test, range: u8) -> Fit {
    let names = names_of(left, right);
    if !within_limit(&names, range) {
        return None;
    }
    let mut row = Row::first(range);
    loop {
        if left.evaluate(&row) && !right.evaluate(&row) {
            return Some(false);
        }
        if !row.advance(&names) {
            return Some(true);
        }
    }
}

/// The names and flags of both tests, each once.
fn names_of(left: &Test, right: &Test) -> Vec<Atom> {
    let mut names: Vec<Atom> = Vec::new();
    let mut add = |atom| {
        if !names.contains(&atom) {
            names.push(atom);
        }
    };
    left.visit_atoms(&mut add);
    right.visit_atoms(&mut add);
    names
}

/// How many choices there are for one name.
fn choices(name: Atom, range: u8) -> u8 {
    match name {
        Atom::Register(_) | Atom::Word(_) => range,
        Atom::Unsync(_) | Atom::Covered(_) => 2,
        Atom::One(_) | Atom::Start => unreachable!("no test has this atom"),
    }
}

/// Whether there are not too many rows.
fn within_limit(names: &[Atom], range: u8) -> bool {
    let rows = names.iter().try_fold(1, |rows, &name| {
        let more = rows * usize::from(choices(name, range));
        (more <= MOST_ROWS).then_some(more)
    });
    rows.is_some()
}

/// One choice for each name. Numbers of names count from 1; place 0 is not used.
struct Row {
    range: u8,
    registers: [u8; 17],
    words: [u8; 9],
    unsync: [bool; 9],
    covered: [bool; 9],
}

impl Row {
    /// The row of zeros.
    fn first(range: u8) -> Row {
        Row { range, registers: [0; 17], words: [0; 9], unsync: [false; 9], covered: [false; 9] }
    }

    /// Goes on to the next row, names counted up like digits; false after the last.
    fn advance(&mut self, names: &[Atom]) -> bool {
        for &name in names {
            let next = self.choice(name) + 1;
            if next < choices(name, self.range) {
                self.choose(name, next);
                return true;
            }
            self.choose(name, 0);
        }
        false
    }

    fn choice(&self, name: Atom) -> u8 {
        match name {
            Atom::Register(number) => self.registers[usize::from(number)],
            Atom::Word(number) => self.words[usize::from(number)],
            Atom::Unsync(number) => self.unsync[usize::from(number)].into(),
            Atom::Covered(number) => self.covered[usize::from(number)].into(),
            Atom::One(_) | Atom::Start => unreachable!("no test has this atom"),
        }
    }

    fn choose(&mut self, name: Atom, choice: u8) {
        match name {
            Atom::Register(number) => self.registers[usize::from(number)] = choice,
            Atom::Word(number) => self.words[usize::from(number)] = choice,
            Atom::Unsync(number) => self.unsync[usize::from(number)] = choice == 1,
            Atom::Covered(number) => self.covered[usize::from(number)] = choice == 1,
            Atom::One(_) | Atom::Start => unreachable!("no test has this atom"),
        }
    }
}

impl Environment for Row {
    fn range(&self) -> u8 {
        self.range
    }

    fn register(&self, register: u8) -> u8 {
        self.registers[usize::from(register)]
    }

    fn word(&self, word: u8) -> u8 {
        self.words[usize::from(word)]
    }

    fn unsync(&self, word: u8) -> bool {
        self.unsync[usize::from(word)]
    }

    fn covered(&self, word: u8) -> bool {
        self.covered[usize::from(word)]
    }
}
