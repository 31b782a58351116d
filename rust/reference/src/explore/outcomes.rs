//! Final states: what the registers hold, and what each word was written last, once every thread has ended.

use super::duties::Run;
use super::search::{Bounds, Cut, Search};
use crate::image::Program;
use crate::machine::{State, View};
use std::collections::BTreeMap;

/// A final state, and a shortest run to it.
#[derive(Clone, Debug, PartialEq, Eq)]
pub struct Final {
    pub registers: Vec<u8>,
    /// The value of the last write of each word.
    pub words: Vec<u8>,
    pub run: Run,
}

/// All final states that were found.
#[derive(Clone, Debug, PartialEq, Eq)]
pub struct Outcomes {
    /// Each once, in the order of registers, then of words.
    pub finals: Vec<Final>,
    pub states: usize,
    pub bounds: Bounds,
    pub cut: Cut,
}

/// Is every thread at its last point?
pub fn has_ended(program: &Program, state: &State) -> bool {
    let mut threads = state.points.iter().zip(&program.threads);
    threads.all(|(point, code)| usize::from(*point) == code.len())
}

/// The view of all last writes.
pub fn last_view(state: &State) -> View {
    let words = (1..).zip(&state.rows);
    words.fold(View::default(), |view, (word, row)| view.moved(word, row.len() as u8 - 1))
}

/// The value of the last write of each word.
pub fn last_values(state: &State) -> Vec<u8> {
    state.rows.iter().map(|row| row[row.len() - 1].value).collect()
}

/// Every final state within the bounds.
pub fn outcomes(program: &Program, bounds: Bounds) -> Outcomes {
    let mut search = Search::new(program, bounds);
    search.exhaust();
    let mut first: BTreeMap<(Vec<u8>, Vec<u8>), usize> = BTreeMap::new();
    for index in 0..search.len() {
        let state = search.state(index);
        if has_ended(program, &state) {
            let words = last_values(&state);
            first.entry((state.registers, words)).or_insert(index);
        }
    }
    let finals = first.into_iter().map(|((registers, words), index)| {
        let (start, steps) = search.run_to(index);
        Final { registers, words, run: Run { start, steps } }
    });
    Outcomes { finals: finals.collect(), states: search.len(), bounds, cut: search.cut }
}

#[cfg(test)]
mod tests {
    use super::*;
    use crate::formula::parse::Counts;
    use crate::formula::{Assertion, Value};
    use crate::image::{Access, Header, Instruction, Thread};
    use std::rc::Rc;

    fn store(word: u8, value: u8) -> Instruction {
        let value = Rc::new(Value::Constant(value));
        Access::Store { word, value, releasing: false }.into()
    }

    fn load(register: u8, word: u8) -> Instruction {
        Access::Load { register, word, acquiring: false }.into()
    }

    fn program(threads: Vec<Thread>, owners: Vec<u8>) -> Program {
        let counts = Counts {
            threads: threads.len() as u8,
            words: 2,
            registers: owners.len() as u8,
            range: 4,
        };
        let truth = Rc::new(Assertion::truth());
        let outline = threads.iter().map(|code| vec![truth.clone(); code.len() + 1]).collect();
        Program { header: Header::cleared(counts, vec![0, 0], owners), threads, outline }
    }

    /// Two threads write both words in opposite orders: each of the four pairs of last values is there.
    #[test]
    fn last_values_are_those_of_the_rows_ends() {
        let code = vec![vec![store(1, 1), store(2, 2)], vec![store(2, 1), store(1, 2)]];
        let program = program(code, vec![]);
        let found = outcomes(&program, Bounds::DEFAULT);
        let words: Vec<&[u8]> = found.finals.iter().map(|end| &end.words[..]).collect();
        assert_eq!(words, [[1, 1], [1, 2], [2, 1], [2, 2]]);
        assert!(!found.cut.any());
        for end in &found.finals {
            assert_eq!(end.run.steps.len(), 4);
        }
    }

    #[test]
    fn registers_tell_final_states_apart_and_bounds_are_noted() {
        let code = vec![vec![store(1, 1), load(1, 2)], vec![store(2, 1), load(2, 1)]];
        let program = program(code, vec![1, 2]);
        let found = outcomes(&program, Bounds::DEFAULT);
        let all: Vec<&[u8]> = found.finals.iter().map(|end| &end.registers[..]).collect();
        assert_eq!(all, [[0, 0], [0, 1], [1, 0], [1, 1]]);
        let few = outcomes(&program, Bounds { steps: 3, ..Bounds::DEFAULT });
        assert!(few.finals.is_empty() && few.cut.steps);
    }

    /// A thread that never ends has no final state.
    #[test]
    fn what_does_not_end_has_no_final_state() {
        let back = Instruction::Branch { test: crate::formula::Test::truth().into(), target: 0 };
        let found = outcomes(&program(vec![vec![back]], vec![]), Bounds::DEFAULT);
        assert!(found.finals.is_empty() && !found.cut.any());
    }
}
