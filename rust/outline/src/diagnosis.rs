//! Is the program wrong, or its proof? What runs of the machine say of an outline that is not accepted, what matters
//! most first.

use crate::judged::Goal;
use crate::refuted::{refutation, Refutation};
use crate::text::reach;
use reference::checker::obligations::Duty;
use reference::explore::truth::is_true;
use reference::explore::{find, seek, Bounds, Cut, Run, Sought};
use reference::image::{Meeting, Program};
use reference::machine::{take, State};

/// How far runs are looked at, if nothing else is asked.
pub const BOUNDS: Bounds = Bounds { steps: 24, writes: 6, starts: 64, states: 30_000 };

/// So many states are tried for each goal that no run breaks.
const REFUTATIONS: usize = 4_000;

/// What a run breaks.
#[derive(Debug, Clone, Copy, PartialEq, Eq)]
pub enum Wrong {
    /// Two threads are at points where they are claimed never to be together.
    Claim(Meeting),
    /// A thread is at its last point, and its assertion there is false.
    Last { thread: u8 },
    /// What an obligation takes for granted is true before the last step, what it says is false behind it.
    Duty(Duty),
}

/// A run, and what is broken at its end.
#[derive(Debug, Clone)]
pub struct Broken {
    pub what: Wrong,
    pub run: Run,
}

impl Broken {
    /// The state at the end of the run.
    pub fn end(&self, program: &Program) -> State {
        end_of(program, &self.run)
    }

    /// Whether it breaks what the program is for, and not only a helper assertion.
    pub fn is_of_program(&self) -> bool {
        !matches!(self.what, Wrong::Duty(_))
    }

    /// Whether this goal is what it breaks.
    pub fn is_of(&self, goal: &Goal) -> bool {
        match (self.what, goal) {
            (Wrong::Claim(meeting), Goal::Claim(other)) => meeting == *other,
            (Wrong::Duty(duty), Goal::Duty(other)) => duty == *other,
            _ => false,
        }
    }

    /// The thread whose assertion is false at the end, if one is.
    pub fn asserting(&self) -> Option<u8> {
        match self.what {
            Wrong::Claim(_) => None,
            Wrong::Last { thread } => Some(thread),
            Wrong::Duty(
                Duty::Start { thread }
                | Duty::Next { thread, .. }
                | Duty::Taken { thread, .. }
                | Duty::Kept { thread, .. },
            ) => Some(thread),
        }
    }
}

/// How far was looked.
#[derive(Debug, Clone, Copy)]
pub struct Reach {
    pub states: usize,
    pub bounds: Bounds,
    pub cut: Cut,
    /// Whether these were all states.
    pub all: bool,
}

impl Reach {
    fn of(sought: &Sought) -> Reach {
        let Sought { states, bounds, cut, all, .. } = *sought;
        Reach { states, bounds, cut, all }
    }

    /// `all 13 states`, or how many were seen and which bounds cut the search.
    pub fn words(&self) -> String {
        match self.all {
            true => reach::all(self.states),
            false => reach::not_all(self.states, &self.cut, &self.bounds),
        }
    }
}

/// A goal without its line, and what the machine says of it.
#[derive(Debug, Clone)]
pub struct Checked {
    pub goal: Goal,
    pub finding: Finding,
    /// How far was looked for a run that breaks it.
    pub reach: Reach,
}

/// What the machine says of a goal without its line; the worst first.
#[derive(Debug, Clone)]
pub enum Finding {
    /// A shortest run that breaks it.
    False(Run),
    /// A state that the goal's own assertions allow, and in which it is false: no rules lead to it.
    Unprovable(Refutation),
    /// Neither was found.
    Unknown,
}

impl Finding {
    /// The word for it in JSON.
    pub fn key(&self) -> &'static str {
        match self {
            Finding::False(_) => "false",
            Finding::Unprovable(_) => "not-provable",
            Finding::Unknown => "not-found",
        }
    }

    /// The worst has the lowest number.
    pub fn rank(&self) -> u8 {
        match self {
            Finding::False(_) => 0,
            Finding::Unprovable(_) => 1,
            Finding::Unknown => 2,
        }
    }
}

/// The answer to "is my program wrong, or my proof?".
#[derive(Debug, Clone, Copy, PartialEq, Eq)]
pub enum Answer {
    /// A run breaks a claim or a last assertion.
    ProgramWrong,
    /// A run breaks an assertion on the way.
    OutlineFalse,
    /// No such run was seen.
    NotProved,
}

impl Answer {
    /// The word for it in JSON.
    pub fn key(self) -> &'static str {
        match self {
            Answer::ProgramWrong => "program-wrong",
            Answer::OutlineFalse => "outline-false",
            Answer::NotProved => "not-proved",
        }
    }

    /// The word for it at the front of a line.
    pub fn head(self) -> &'static str {
        match self {
            Answer::ProgramWrong => "PROGRAM WRONG",
            Answer::OutlineFalse => "OUTLINE FALSE",
            Answer::NotProved => "NOT PROVED",
        }
    }
}

/// What the machine says of a program with its claims and its outline.
#[derive(Debug, Clone)]
pub struct Diagnosis {
    /// A shortest run that breaks a claim, or else one that ends with a last assertion false.
    pub program: Option<Broken>,
    /// How far was looked for it.
    pub program_reach: Reach,
    /// The goals without their lines, in order.
    pub goals: Vec<Checked>,
    pub has_claims: bool,
}

impl Diagnosis {
    /// Looks for runs that break a claim or a last assertion, then for those that break what has no line.
    pub fn of(program: &Program, claims: &[Meeting], open: &[Goal], bounds: Bounds) -> Diagnosis {
        let of_claims = (!claims.is_empty()).then(|| breaking_claim(program, claims, bounds));
        let claim_breaks = matches!(of_claims, Some((Some(_), _)));
        let (worst, program_reach) = match of_claims {
            Some((Some(broken), reach)) => (Some(broken), reach),
            _ => breaking_last(program, bounds),
        };
        let duty = |goal: &Goal| match goal {
            Goal::Duty(duty) => Some(*duty),
            Goal::Claim(_) => None,
        };
        let duties: Vec<Duty> = open.iter().filter_map(duty).collect();
        let sought = seek(program, &duties, bounds);
        let reach = Reach::of(&sought);
        let mut runs = sought.runs.into_iter();
        let check = |goal: &Goal| {
            let (run, reach) = match goal {
                Goal::Duty(_) => (runs.next().expect("a run or none for each"), reach),
                // Nothing was found for all claims together, as far as for last assertions.
                Goal::Claim(_) if !claim_breaks => (None, program_reach),
                Goal::Claim(meeting) => {
                    let (broken, reach) = breaking_claim(program, &[*meeting], bounds);
                    (broken.map(|broken| broken.run), reach)
                }
            };
            Checked { goal: *goal, finding: finding(program, goal, run), reach }
        };
        let goals = open.iter().map(check).collect();
        Diagnosis { program: worst, program_reach, goals, has_claims: !claims.is_empty() }
    }

    pub fn answer(&self) -> Answer {
        match self.worst() {
            Some(broken) if broken.is_of_program() => Answer::ProgramWrong,
            Some(_) => Answer::OutlineFalse,
            None => Answer::NotProved,
        }
    }

    /// The run that matters most: one that breaks a claim or a last assertion, else the first that breaks an obligation.
    pub fn worst(&self) -> Option<Broken> {
        let duty = |checked: &Checked| match (checked.goal, &checked.finding) {
            (Goal::Duty(duty), Finding::False(run)) => {
                Some(Broken { what: Wrong::Duty(duty), run: run.clone() })
            }
            _ => None,
        };
        self.program.clone().or_else(|| self.goals.iter().find_map(duty))
    }

    /// What was found out about a goal.
    pub fn of_goal(&self, goal: &Goal) -> Option<&Checked> {
        self.goals.iter().find(|checked| checked.goal == *goal)
    }

    /// How far was looked for anything that is false: as far as for what was looked at least.
    pub fn reach(&self) -> Reach {
        let reaches = self.goals.iter().map(|checked| checked.reach).chain([self.program_reach]);
        reaches.min_by_key(|reach| (reach.all, reach.states)).expect("there is one")
    }
}

fn finding(program: &Program, goal: &Goal, run: Option<Run>) -> Finding {
    if let Some(run) = run {
        return Finding::False(run);
    }
    match refutation(program, &goal.wanted(program), REFUTATIONS) {
        Some(refutation) => Finding::Unprovable(refutation),
        None => Finding::Unknown,
    }
}

/// A shortest run that brings two threads to points where they are claimed never to be together.
fn breaking_claim(
    program: &Program,
    claims: &[Meeting],
    bounds: Bounds,
) -> (Option<Broken>, Reach) {
    let met = |state: &State| claims.iter().find(|meeting| state.has_meeting(meeting));
    let sought = find(program, bounds, &|state| met(state).is_some());
    let broken = |run: &Run| {
        let meeting = *met(&end_of(program, run)).expect("the run ends where they meet");
        Broken { what: Wrong::Claim(meeting), run: run.clone() }
    };
    (sought.runs[0].as_ref().map(broken), Reach::of(&sought))
}

/// A shortest run at whose end a thread is at its last point and its assertion there is false.
fn breaking_last(program: &Program, bounds: Bounds) -> (Option<Broken>, Reach) {
    let is_last = |thread: u8, point: u8| program.instruction(thread, point).is_none();
    let wrong = |state: &State| {
        let mut places = (1..).zip(state.points.iter().copied());
        let is_false = |&(thread, point): &(u8, u8)| {
            let assertion = program.assertion(thread, point);
            is_last(thread, point) && !is_true(assertion, state, &program.header)
        };
        places.find(is_false).map(|(thread, _)| thread)
    };
    let sought = find(program, bounds, &|state| wrong(state).is_some());
    let broken = |run: &Run| {
        let thread = wrong(&end_of(program, run)).expect("the run ends where it is false");
        Broken { what: Wrong::Last { thread }, run: run.clone() }
    };
    (sought.runs[0].as_ref().map(broken), Reach::of(&sought))
}

fn end_of(program: &Program, run: &Run) -> State {
    run.steps.iter().fold(run.start.clone(), |state, step| {
        take(&program.threads, &state, *step).expect("a step of the run")
    })
}
