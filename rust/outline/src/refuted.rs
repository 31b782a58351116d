//! Well-formed states in which a statement is false. What the rules lead to is true of every well-formed state, so that
//! no certificate shows a statement for which there is one.
//!
//! The states are tried in an order that is the same every time, smaller ones first.

use reference::explore::truth::{is_true, reach};
use reference::formula::Assertion;
use reference::image::{Program, Statement};
use reference::machine::{take, State, Step, View, Write};

/// At most so many start states are tried.
const STARTS: usize = 4096;

/// The most writes of a word.
const WRITES: usize = 3;

/// Values stay small, so that tests are often true.
const VALUES: usize = 3;

/// A state in which a statement is false; of a triple also the step behind which it is.
#[derive(Debug, Clone)]
pub struct Refutation {
    pub state: State,
    pub step: Option<Step>,
}

/// A small generator of numbers, whose numbers are the same every time.
struct Dice(u64);

impl Dice {
    fn roll(&mut self, n: usize) -> usize {
        self.0 = self.0.wrapping_mul(6364136223846793005).wrapping_add(1442695040888963407);
        (self.0 >> 33) as usize % n
    }

    fn view(&mut self, lengths: &[usize]) -> View {
        let mut view = View::default();
        for (word, length) in (1..).zip(lengths) {
            view = view.moved(word, self.roll(*length) as u8);
        }
        view
    }

    /// Small, the word's start value or the largest one.
    fn value(&mut self, start: u8, range: u8) -> u8 {
        [0, 1, 2, start, range - 1][self.roll(5)] % range
    }

    /// A state with at most so many writes of each word.
    fn state(&mut self, program: &Program, writes: usize) -> State {
        let mut state = State::start(&program.header);
        let lengths: Vec<usize> = state.rows.iter().map(|_| 1 + self.roll(writes)).collect();
        for (w, length) in lengths.iter().enumerate() {
            let start = program.header.start[w];
            let write = |at: usize| Write {
                value: self.value(start, state.range),
                releasing: self.roll(2) == 0,
                covered: self.roll(3) == 0,
                stored: self.view(&lengths).moved(w as u8 + 1, at as u8),
            };
            state.rows[w] = (0..*length).map(write).collect();
        }
        state.views = state.views.iter().map(|_| self.view(&lengths)).collect();
        state.registers =
            state.registers.iter().map(|_| self.roll(VALUES) as u8 % state.range).collect();
        state
    }

    /// A list of views of the state, between the first writes and the last; some steps move several words.
    fn chain(&mut self, state: &State) -> Vec<View> {
        let mut chain = vec![View::default()];
        loop {
            let last = *chain.last().expect("a view");
            let movable = |w: &u8| usize::from(last.at(*w)) + 1 < state.row(*w).len();
            let words: Vec<u8> = (1..=state.rows.len() as u8).filter(movable).collect();
            if words.is_empty() {
                chain.retain(|_| self.roll(3) > 0);
                return chain;
            }
            let word = words[self.roll(words.len())];
            chain.push(last.moved(word, last.at(word) + 1));
        }
    }
}

/// A state in which the statement is false, if one is among the start states and so many others.
pub fn refutation(program: &Program, statement: &Statement, tries: usize) -> Option<Refutation> {
    let found = first(program, statement, tries)?;
    Some(plainer(program, statement, found))
}

fn first(program: &Program, statement: &Statement, tries: usize) -> Option<Refutation> {
    let mut dice = Dice(1);
    let start = State::starts(&program.header, STARTS)
        .find_map(|s| falsified(program, statement, s, &mut dice));
    start.or_else(|| {
        (0..tries).find_map(|n| {
            // An eighth of the tries has one write of each word, a quarter two.
            let writes = if 8 * n < tries {
                1
            } else if 8 * n < 3 * tries {
                2
            } else {
                WRITES
            };
            let state = dice.state(program, writes);
            falsified(program, statement, state, &mut dice)
        })
    })
}

/// The same with what does not matter as it is at the start: registers, values, marks.
fn plainer(program: &Program, statement: &Statement, found: Refutation) -> Refutation {
    if matches!(statement, Statement::Inclusion { .. }) {
        return found;
    }
    let mut plain = found;
    let mut keep = |change: &dyn Fn(&mut State)| {
        let mut state = plain.state.clone();
        change(&mut state);
        // Nothing but an inclusion asks the dice.
        if let Some(found) = falsified(program, statement, state, &mut Dice(1)) {
            plain = found;
        }
    };
    for register in 0..program.header.owners.len() {
        keep(&|state| state.registers[register] = 0);
    }
    for (word, start) in program.header.start.iter().enumerate() {
        for at in 0..WRITES {
            let write = |state: &mut State, change: &dyn Fn(&mut Write)| {
                state.rows[word].get_mut(at).into_iter().for_each(change);
            };
            keep(&|state| write(state, &|write| write.value = *start));
            keep(&|state| write(state, &|write| write.covered = false));
            keep(&|state| write(state, &|write| write.releasing = false));
        }
    }
    plain
}

fn falsified(
    program: &Program,
    statement: &Statement,
    state: State,
    dice: &mut Dice,
) -> Option<Refutation> {
    let truth = |a: &Assertion, s: &State| is_true(a, s, &program.header);
    let (is_false, step) = match statement {
        Statement::Inclusion { left, right } => {
            let chain = dice.chain(&state);
            let satisfies = |interval| reach(&state, interval, &chain, 0) == chain.len();
            (satisfies(left) && !satisfies(right), None)
        }
        Statement::Implication { left, right } => {
            (truth(left, &state) && !truth(right, &state), None)
        }
        Statement::Triple { thread, point, left, right } => {
            let mut before = state;
            before.points[usize::from(*thread) - 1] = *point;
            let longest = before.rows.iter().map(Vec::len).max().unwrap_or(0);
            let mut steps = (0..longest).map(|position| Step { thread: *thread, position });
            let breaks = |step: &Step| {
                let after = take(&program.threads, &before, *step);
                after.is_some_and(|after| !truth(right, &after))
            };
            let step = if truth(left, &before) { steps.find(breaks) } else { None };
            return step.map(|step| Refutation { state: before, step: Some(step) });
        }
    };
    is_false.then_some(Refutation { state, step })
}
