//! What happens in a run: its moments, and what each step reads, writes and takes over.

use crate::text::print::Names;
use reference::explore::Run;
use reference::image::{Access, Instruction, Program};
use reference::machine::{take, State, Step};

/// Who made a write: the start, or a step by its number, counted from 1.
#[derive(Debug, Clone, Copy, PartialEq, Eq)]
pub enum Maker {
    Start,
    Step(usize),
}

/// A state of the run, with the maker of each write in its rows.
#[derive(Debug, Clone)]
pub struct Moment {
    pub state: State,
    pub makers: Vec<Vec<Maker>>,
}

/// One step, told.
#[derive(Debug, Clone)]
pub struct Act {
    pub number: usize,
    pub thread: u8,
    pub point: u8,
    pub instruction: String,
    pub effect: String,
    /// The word that is read and the maker of the write, if one is.
    pub reads: Option<(u8, Maker)>,
    /// The step whose release is acquired.
    pub acquires: Option<usize>,
}

/// A run: its acts, and the moments before, between and behind them.
#[derive(Debug, Clone)]
pub struct Story {
    pub moments: Vec<Moment>,
    pub acts: Vec<Act>,
}

impl Story {
    pub fn of(program: &Program, names: &Names, run: &Run) -> Story {
        let makers = run.start.rows.iter().map(|_| vec![Maker::Start]).collect();
        let mut moments = vec![Moment { state: run.start.clone(), makers }];
        let mut acts = Vec::new();
        for (number, &step) in (1..).zip(&run.steps) {
            let before = moments.last().expect("a run has a start");
            let after = take(&program.threads, &before.state, step).expect("a step of the run");
            let told = Telling { program, names, before, after: &after, step, number };
            acts.push(told.act());
            let makers = told.makers();
            moments.push(Moment { state: after, makers });
        }
        Story { moments, acts }
    }

    /// The moment before the last step; of a run without steps the start.
    pub fn before_last(&self) -> &Moment {
        &self.moments[self.acts.len().saturating_sub(1)]
    }

    pub fn end(&self) -> &Moment {
        self.moments.last().expect("a run has a start")
    }
}

/// A step with the states about it, from which it is seen what the step did.
struct Telling<'a> {
    program: &'a Program,
    names: &'a Names,
    before: &'a Moment,
    after: &'a State,
    step: Step,
    number: usize,
}

impl Telling<'_> {
    fn point(&self) -> u8 {
        self.before.state.points[usize::from(self.step.thread) - 1]
    }

    fn instruction(&self) -> &Instruction {
        self.program.instruction(self.step.thread, self.point()).expect("a step of the run")
    }

    /// The word whose row the step has made longer.
    fn written(&self) -> Option<u8> {
        let longer = |x: &u8| self.after.row(*x).len() > self.before.state.row(*x).len();
        self.instruction().word().filter(longer)
    }

    /// The word of which a write is read: loads read, and so do steps that cover the write they pick.
    fn read(&self) -> Option<u8> {
        let word = self.instruction().word()?;
        let covers = self.after.row(word)[self.step.position].covered;
        (self.written().is_none() || covers).then_some(word)
    }

    fn acquires(&self) -> bool {
        let load =
            matches!(self.instruction().access(), Some(Access::Load { acquiring: true, .. }));
        load || (self.written().is_some() && self.read().is_some())
    }

    fn act(&self) -> Act {
        let picked = |x: u8| self.before.makers[usize::from(x) - 1][self.step.position];
        let reads = self.read().map(|x| (x, picked(x)));
        let releasing = |x: u8| self.before.state.row(x)[self.step.position].releasing;
        let acquires = match reads {
            Some((x, Maker::Step(n))) if self.acquires() && releasing(x) => Some(n),
            _ => None,
        };
        Act {
            number: self.number,
            thread: self.step.thread,
            point: self.point(),
            instruction: self.names.instruction(self.step.thread, self.instruction()),
            effect: self.effect(),
            reads,
            acquires,
        }
    }

    /// Value by value what the step did.
    fn effect(&self) -> String {
        let mut parts = Vec::new();
        let at = self.step.position;
        if let Some(x) = self.read() {
            parts.push(format!("reads {}", self.before.state.row(x)[at].value));
        }
        if let Some(x) = self.written() {
            parts.push(format!("writes {}", self.after.row(x)[at + 1].value));
            if at + 2 < self.after.row(x).len() {
                parts.push(format!("behind {}, not last", self.after.row(x)[at].value));
            }
        }
        if self.instruction().is_branch() {
            let point = self.after.points[usize::from(self.step.thread) - 1];
            parts.push(format!("goes to {}", self.names.point(self.step.thread, point)));
        }
        parts.extend(self.assigned());
        parts.join(", ")
    }

    /// Registers that got a formula's value.
    fn assigned(&self) -> Vec<String> {
        let value = |r: u8| self.after.registers[usize::from(r) - 1];
        let set = self.instruction().notes().iter().map(|note| note.register);
        set.map(|r| format!("{} is {}", self.names.register(r), value(r))).collect()
    }

    /// The makers behind the step: a new write stands directly behind the one picked.
    fn makers(&self) -> Vec<Vec<Maker>> {
        let mut makers = self.before.makers.clone();
        if let Some(x) = self.written() {
            makers[usize::from(x) - 1].insert(self.step.position + 1, Maker::Step(self.number));
        }
        makers
    }
}

#[cfg(test)]
mod tests {
    use super::*;
    use crate::text::parse_source::parse;
    use reference::formula::Value;
    use reference::image::Note;

    const HANDED: &str = "word data = 0 word flag = 0
thread w { true } data := 1 { true } flag :=rel 2 { true }
thread r registers a, b { true } a <-acq flag { true } b <- data { true }
thread s registers c { true } c <- exchange flag := 3 { true } if c = 2 goto 0 { true } data := 4 { true }";

    fn told(steps: &[(u8, usize)]) -> Story {
        let source = parse(HANDED).expect("a source");
        let program = source.program();
        let steps = steps.iter().map(|&(thread, position)| Step { thread, position }).collect();
        let run = Run { start: State::start(&program.header), steps };
        Story::of(&program, &source.names, &run)
    }

    #[test]
    fn reads_name_their_writes_and_acquires_their_releases() {
        let story = told(&[(1, 0), (1, 0), (2, 1), (2, 1), (3, 1), (3, 0)]);
        let acts: Vec<_> =
            story.acts.iter().map(|a| (a.effect.as_str(), a.reads, a.acquires)).collect();
        let flag = Some((2, Maker::Step(2)));
        assert_eq!(acts[0], ("writes 1", None, None));
        assert_eq!(acts[2], ("reads 2", flag, Some(2)));
        assert_eq!(acts[3], ("reads 1", Some((1, Maker::Step(1))), None));
        assert_eq!(acts[4], ("reads 2, writes 3", flag, Some(2)));
        assert_eq!(acts[5], ("goes to point 0", None, None));
        assert_eq!(story.end().makers[1], [Maker::Start, Maker::Step(2), Maker::Step(5)]);
        assert!(
            story.end().state.row(2)[1].covered && !story.before_last().state.row(2)[2].covered
        );
    }

    /// A store with a note: both are told, and the note is worked out before the step.
    #[test]
    fn a_pair_is_one_step() {
        let mut source =
            parse("word x = 0 thread t registers r { true } r := 1 { true }").expect("a source");
        let store = Access::Store { word: 1, value: Value::Register(1).into(), releasing: true };
        source.threads[0][0] = Instruction::pair(store, Note::new(1, Value::Constant(3)));
        let program = source.program();
        let steps = vec![Step { thread: 1, position: 0 }];
        let run = Run { start: State::start(&program.header), steps };
        let story = Story::of(&program, &source.names, &run);
        assert_eq!(story.acts[0].effect, "writes 0, r is 3");
        assert_eq!(story.end().makers[0], [Maker::Start, Maker::Step(1)]);
    }

    #[test]
    fn a_write_in_the_middle_is_told_and_keeps_its_place() {
        let story = told(&[(1, 0), (3, 0), (3, 0), (3, 0)]);
        assert_eq!(story.acts[1].reads, Some((2, Maker::Start)));
        assert_eq!(story.acts[2].effect, "goes to point 2");
        assert_eq!(story.acts[3].effect, "writes 4, behind 0, not last");
        assert_eq!(story.end().makers[0], [Maker::Start, Maker::Step(4), Maker::Step(1)]);
    }
}
