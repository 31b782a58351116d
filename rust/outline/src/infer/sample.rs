//! States of the program that is given: what is false in one of them is not worth a try.

use crate::infer::bits::Bits;
use crate::infer::cases::{Cases, Spot};
use crate::terms::V;
use reference::explore::{find, Bounds};
use reference::image::Program;
use reference::machine::{State, View};
use std::cell::RefCell;
use std::collections::{BTreeMap, BTreeSet};

/// A thread and its point.
pub type Place = (u8, u8);

/// A sample that has so many states is large enough.
const ENOUGH: usize = 300;
/// No sample has many more states than this.
const MOST: usize = 1500;
/// The writes in a row grow until all states are seen, or enough of them.
const WRITES: [usize; 5] = [4, 6, 8, 12, 16];

/// States that the program reaches, perhaps all.
pub struct Sample {
    pub states: Vec<State>,
    /// Are these all states?
    pub all: bool,
    /// How points are told apart further.
    pub cases: Cases,
    there: BTreeMap<Place, Bits>,
    nowhere: Bits,
    word_values: Vec<BTreeSet<u8>>,
    register_values: Vec<BTreeSet<u8>>,
}

impl Sample {
    pub fn of(program: &Program) -> Sample {
        let mut found = (Vec::new(), false);
        for writes in WRITES {
            found = reached(program, writes);
            if found.1 || found.0.len() >= ENOUGH {
                break;
            }
        }
        let (states, all) = found;
        let mut sample = Sample {
            all,
            cases: Cases::default(),
            nowhere: Bits::none(states.len()),
            there: places(program).map(|place| (place, Bits::none(states.len()))).collect(),
            word_values: vec![BTreeSet::new(); program.header.start.len()],
            register_values: vec![BTreeSet::new(); program.header.owners.len()],
            states,
        };
        sample.note_values();
        sample.split(&[]);
        sample
    }

    fn note_values(&mut self) {
        for (n, state) in self.states.iter().enumerate() {
            for (thread, point) in (1..).zip(&state.points) {
                self.there.get_mut(&(thread, *point)).expect("a point").add(n);
            }
            for (values, row) in self.word_values.iter_mut().zip(&state.rows) {
                values.extend(row.iter().map(|write| write.value));
            }
            for (values, register) in self.register_values.iter_mut().zip(&state.registers) {
                values.insert(*register);
            }
        }
    }

    /// The states in which a thread is at a point.
    pub fn at(&self, place: Place) -> &Bits {
        &self.there[&place]
    }

    /// The states of a spot.
    pub fn there(&self, spot: Spot) -> &Bits {
        self.cases.there(spot).unwrap_or(&self.nowhere)
    }

    /// Points are told apart by the values of these registers.
    pub fn split(&mut self, registers: &[u8]) {
        let places: Vec<Place> = self.places().collect();
        self.cases = Cases::of(&self.states, &places, registers);
    }

    /// Every point of every thread.
    pub fn places(&self) -> impl Iterator<Item = Place> + '_ {
        self.there.keys().copied()
    }

    /// Are two threads at these spots together in some state?
    pub fn meet(&self, one: Spot, other: Spot) -> bool {
        self.there(one).meets(self.there(other))
    }

    /// How many registers there are.
    pub fn registers(&self) -> u8 {
        self.register_values.len() as u8
    }

    /// How many words there are.
    pub fn words(&self) -> u8 {
        self.word_values.len() as u8
    }

    /// The values that a word has somewhere.
    pub fn word_values(&self, word: u8) -> BTreeSet<u8> {
        self.word_values[usize::from(word) - 1].clone()
    }

    /// The values that a register has somewhere.
    pub fn register_values(&self, register: u8) -> BTreeSet<u8> {
        self.register_values[usize::from(register) - 1].clone()
    }

    /// The values of a register in these states.
    pub fn register_in(&self, states: &Bits, register: u8) -> BTreeSet<u8> {
        states.numbers().map(|n| self.states[n].registers[usize::from(register) - 1]).collect()
    }

    /// The values of a register at a spot.
    pub fn register_at(&self, spot: Spot, register: u8) -> BTreeSet<u8> {
        self.register_in(self.there(spot), register)
    }

    /// The values of an operand, which names registers alone, where a thread is at a point.
    pub fn values_at(&self, place: Place, operand: &V) -> BTreeSet<u8> {
        let seen = |n: usize| operand.evaluate(&self.states[n].seen_at(View::default()));
        self.at(place).numbers().map(seen).collect()
    }
}

/// All points of all threads.
pub fn places(program: &Program) -> impl Iterator<Item = Place> + '_ {
    let threads = (1..).zip(&program.threads);
    threads.flat_map(|(thread, code)| (0..=code.len() as u8).map(move |point| (thread, point)))
}

/// The states with at most so many writes in a row, and whether these are all.
fn reached(program: &Program, writes: usize) -> (Vec<State>, bool) {
    let bounds = Bounds { steps: 40, writes, starts: 64, states: MOST };
    let found: RefCell<Vec<State>> = RefCell::default();
    let sought = find(program, bounds, &|state| {
        found.borrow_mut().push(state.clone());
        false
    });
    (found.into_inner(), sought.all)
}

#[cfg(test)]
mod tests {
    use super::*;
    use crate::terms::{constant, register};
    use crate::text::parse_source::parse;

    const LOOP: &str =
        "word x = 0\nthread a\n registers r\n again: x := 1\n r <- x\n if r = 1 goto again\n\
                        thread b\n registers s\n s <- x\n";

    #[test]
    fn a_straight_program_is_seen_whole() {
        let text = "word x = 0\nthread a\n registers r\n x := 2\n r <- x\nthread b\n registers s\n s <- x\n";
        let program = parse(text).expect("a program").program();
        let sample = Sample::of(&program);
        assert!(sample.all && sample.word_values(1) == [0, 2].into());
        assert_eq!(sample.register_at(Spot::of((1, 2), 0), 1), [2].into());
        assert_eq!(sample.values_at((2, 1), &register(2)), [0, 2].into());
        assert_eq!(sample.values_at((1, 0), &constant(3)), [3].into());
        assert!(sample.meet(Spot::of((1, 0), 0), Spot::of((2, 1), 0)));
    }

    #[test]
    fn a_loop_that_writes_is_seen_in_part_and_far_enough() {
        let program = parse(LOOP).expect("a program").program();
        let sample = Sample::of(&program);
        assert!(!sample.all && sample.states.len() >= 100, "{}", sample.states.len());
    }
}
