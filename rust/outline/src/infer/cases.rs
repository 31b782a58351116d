//! Cases of a point: the states there by the values of some registers.
//!
//! With no registers a point has one case, and nothing is told apart. A case has the same number at every point, so that
//! two threads that meet are in the same one.

use crate::infer::bits::Bits;
use crate::infer::folded;
use crate::infer::sample::Place;
use crate::terms::*;
use reference::formula::replace::Replace;
use reference::formula::Value;
use reference::image::{Instruction, Program};
use reference::machine::State;
use std::collections::BTreeMap;
use std::rc::Rc;

/// A point in one of its cases, or what comes behind its instruction from there.
#[derive(Debug, Clone, Copy, PartialEq, Eq, Hash, PartialOrd, Ord)]
pub struct Spot {
    pub place: Place,
    pub case: u8,
    /// None: at the point itself; else behind its instruction, and whether that is a branch that is taken.
    pub behind: Option<bool>,
}

impl Spot {
    pub fn of(place: Place, case: u8) -> Spot {
        Spot { place, case, behind: None }
    }
}

/// The registers that tell cases apart, their values in each case, and the states of each spot.
#[derive(Debug, Default)]
pub struct Cases {
    registers: Vec<u8>,
    values: Vec<Vec<u8>>,
    there: BTreeMap<Spot, Bits>,
}

impl Cases {
    /// The states by the values of these registers. If there are none, every point has its one case, also one without
    /// states.
    pub fn of(states: &[State], places: &[Place], registers: &[u8]) -> Cases {
        let mut cases = Cases { registers: registers.to_vec(), ..Cases::default() };
        if registers.is_empty() {
            let all = places.iter().map(|place| (Spot::of(*place, 0), Bits::none(states.len())));
            cases.there.extend(all);
        }
        for (n, state) in states.iter().enumerate() {
            let own = |r: &u8| state.registers[usize::from(*r) - 1];
            let values: Vec<u8> = registers.iter().map(own).collect();
            let case = cases.number(values);
            for (thread, point) in (1..).zip(&state.points) {
                let spot = Spot::of((thread, *point), case);
                let bits = cases.there.entry(spot).or_insert_with(|| Bits::none(states.len()));
                bits.add(n);
            }
        }
        cases
    }

    fn number(&mut self, values: Vec<u8>) -> u8 {
        let known = self.values.iter().position(|other| *other == values);
        let number = known.unwrap_or_else(|| {
            self.values.push(values);
            self.values.len() - 1
        });
        u8::try_from(number).unwrap_or(u8::MAX)
    }

    /// Is nothing told apart?
    pub fn is_whole(&self) -> bool {
        self.registers.is_empty()
    }

    /// Has each of these points a case, and none more than so many?
    pub fn are_few(&self, places: &[Place], most: usize) -> bool {
        let few = |place: &Place| (1..=most).contains(&self.at(*place).count());
        self.values.len() <= usize::from(u8::MAX) && places.iter().all(few)
    }

    /// The cases of a point.
    pub fn at(&self, place: Place) -> impl Iterator<Item = Spot> + '_ {
        let all = Spot::of(place, 0)..=Spot::of(place, u8::MAX);
        self.there.range(all).map(|(spot, _)| *spot)
    }

    pub fn has(&self, spot: Spot) -> bool {
        self.there.contains_key(&spot)
    }

    /// The states of a spot, if there are any.
    pub fn there(&self, spot: Spot) -> Option<&Bits> {
        self.there.get(&spot)
    }

    /// What the registers are in a case.
    pub fn known(&self, case: u8) -> impl Iterator<Item = (u8, u8)> + '_ {
        let values = self.values.get(usize::from(case)).into_iter().flatten();
        self.registers.iter().copied().zip(values.copied())
    }

    /// The formula with what the registers are in a case.
    pub fn settled<S: Replace>(&self, case: u8, formula: &Rc<S>) -> Rc<S> {
        let one =
            |formula: Rc<S>, (r, v): (u8, u8)| replaced(&formula, Value::Register(r), &constant(v));
        self.known(case).fold(formula.clone(), one)
    }

    /// The registers whose values in the case behind are not told by the case before, with these values; none if the
    /// instruction does not lead from one to the other.
    pub fn open(
        &self,
        c: &Instruction,
        before: u8,
        behind: u8,
        range: u8,
    ) -> Option<Vec<(u8, u8)>> {
        let mut open = Vec::new();
        for ((r, old), (_, new)) in self.known(before).zip(self.known(behind)) {
            let note = c.notes().iter().find(|note| note.register == r);
            let told = match note {
                _ if c.result() == Some(r) => None,
                Some(note) => match *folded::value(&self.settled(before, &note.value), range) {
                    Value::Constant(v) => Some(v),
                    _ => None,
                },
                None => Some(old),
            };
            match told {
                Some(v) if v != new => return None,
                Some(_) => {}
                None => open.push((r, new)),
            }
        }
        Some(open)
    }

    /// The cases behind an instruction at the next point.
    pub fn behind(&self, program: &Program, from: Spot) -> Vec<u8> {
        let (thread, point) = from.place;
        let Some(c) = program.instruction(thread, point) else { return vec![] };
        let range = program.header.counts.range;
        let next = self.at((thread, point + 1)).map(|spot| spot.case);
        next.filter(|case| self.open(c, from.case, *case, range).is_some()).collect()
    }
}

/// The registers that no load sets: they tell how far the threads have come.
pub fn lasting(program: &Program) -> Vec<u8> {
    let code = || program.threads.iter().flatten();
    let loaded = |r: u8| code().filter_map(|c| c.load()).any(|load| load.register == r);
    let set = |r: u8| code().any(|c| c.registers_set().contains(&r));
    (1..=program.header.owners.len() as u8).filter(|r| set(*r) && !loaded(*r)).collect()
}

#[cfg(test)]
mod tests {
    use super::*;
    use crate::infer::sample::Sample;
    use crate::text::parse_source::parse;

    /// Two threads that take a ticket and look at a word.
    const TICKETS: &str = "word next = 1\nword x = 0\n\
                           thread a\n registers r, s\n r <- fetch-add next + 1\n s <- x\n\
                           thread b\n registers t\n t <- fetch-add next + 1\n x := 1 | t := t + 2\n";

    #[test]
    fn what_a_load_sets_tells_no_cases_apart() {
        let program = parse(TICKETS).expect("a program").program();
        assert_eq!(lasting(&program), [1, 3]);
    }

    #[test]
    fn a_point_has_the_cases_of_its_states() {
        let program = parse(TICKETS).expect("a program").program();
        let mut sample = Sample::of(&program);
        let places: Vec<Place> = sample.places().collect();
        assert!(sample.cases.is_whole() && sample.cases.are_few(&places, 1));
        sample.split(&[1, 3]);
        let cases = &sample.cases;
        assert!(cases.are_few(&places, 8) && !cases.are_few(&places, 2));
        let known = |spot: Spot| cases.known(spot.case).map(|(_, v)| v).collect::<Vec<u8>>();
        let mut first: Vec<Vec<u8>> = cases.at((1, 0)).map(known).collect();
        first.sort();
        assert_eq!(first, [[0, 0], [0, 1], [0, 3]]);
        let start = cases.at((1, 0)).find(|spot| known(*spot) == [0, 0]).expect("the start");
        assert!(
            cases.has(Spot::of((2, 0), start.case)) && !cases.has(Spot::of((1, 1), start.case))
        );
    }

    #[test]
    fn a_point_without_states_has_a_case_only_if_nothing_is_told_apart() {
        let text =
            "word x = 0\nthread a\n registers r\n again: r := 1\n if true goto again\n x := 1\n";
        let mut sample = Sample::of(&parse(text).expect("a program").program());
        let places: Vec<Place> = sample.places().collect();
        assert!(sample.cases.has(Spot::of((1, 2), 0)) && sample.cases.are_few(&places, 1));
        sample.split(&[1]);
        assert!(!sample.cases.are_few(&places, 8));
    }

    #[test]
    fn a_result_is_open_and_a_note_is_not() {
        let program = parse(TICKETS).expect("a program").program();
        let mut sample = Sample::of(&program);
        sample.split(&[1, 3]);
        let cases = &sample.cases;
        let of = |values: [u8; 2]| {
            let all: Vec<Spot> = sample.places().flat_map(|place| cases.at(place)).collect();
            let is = |spot: &Spot| cases.known(spot.case).map(|(_, v)| v).eq(values);
            let found = all.into_iter().find(is).expect("a case");
            found.case
        };
        let (add, note) = (&program.threads[0][0], &program.threads[1][1]);
        let range = program.header.counts.range;
        assert_eq!(cases.open(add, of([0, 0]), of([1, 0]), range), Some(vec![(1, 1)]));
        assert_eq!(cases.open(add, of([0, 0]), of([0, 1]), range), None);
        assert_eq!(cases.open(note, of([0, 1]), of([0, 3]), range), Some(vec![]));
        assert_eq!(cases.open(note, of([0, 1]), of([1, 2]), range), None);
    }
}
