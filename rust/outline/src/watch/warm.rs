//! Building the same outline again and again: lines that were found for an obligation serve as long as the program, the
//! named steps and what the obligation says are the same.

use crate::build::{assemble, shorter, take_hint, Built, Goal, One, Sought, Watch};
use crate::explicit;
use crate::search::budget::{Budget, BEYOND, TRIES};
use crate::search::certificate::Certificate;
use crate::search::kept::Kept;
use crate::search::prover::{Line, Prover};
use crate::search::tried::Lacking;
use crate::text::lex::Mistake;
use crate::text::source::Source;
use reference::checker::limits::FORMULAS;
use reference::image::{Header, Statement, Thread};
use std::collections::HashMap;
use std::mem::take;

/// With more lines than this all is forgotten, so that a day of edits does not fill the memory.
const MOST_LINES: usize = 200_000;

/// What the lines found depend on: instructions, named steps, and the tries that a search has.
#[derive(Debug, PartialEq)]
struct Key {
    header: Header,
    threads: Vec<Thread>,
    hints: Vec<String>,
    tries: u64,
}

impl Key {
    fn of(source: &Source, tries: u64) -> Key {
        let hint = |h: &crate::text::source::Hint| {
            format!("{:?} {:?} {:?}", h.statement, h.rule, h.middle)
        };
        Key {
            header: source.header.clone(),
            threads: source.threads.clone(),
            hints: source.hints.iter().map(hint).collect(),
            tries,
        }
    }
}

/// The lines of what was named, where all of it was found.
#[derive(Debug, Default)]
struct Named {
    steps: Vec<Line>,
    facts: Vec<Line>,
    parts: Vec<Line>,
}

/// What was told of a goal that was not found, and the tries after which it was given up, if it was.
#[derive(Debug, Clone)]
struct Missed {
    given_up: Option<u64>,
    told: (Vec<String>, Option<Lacking>),
}

/// What was found and what was not, of one outline.
#[derive(Debug, Default)]
pub struct Memory {
    key: Option<Key>,
    lines: Certificate,
    named: Option<Named>,
    proved: HashMap<Statement, Line>,
    open: HashMap<Statement, Missed>,
    /// The names in which open obligations were told.
    names: String,
}

impl Memory {
    /// Forgets what does not fit this source.
    fn renew(&mut self, source: &Source, tries: u64) {
        let key = Some(Key::of(source, tries));
        if self.key != key || self.lines.entries.len() > MOST_LINES {
            *self = Memory { key, ..Memory::default() };
        }
        let names = format!("{:?}", source.names);
        if self.names != names {
            self.open.clear();
            self.names = names;
        }
    }

    /// What is known of a goal.
    fn recall(&self, one: &mut One) {
        if let Some(line) = self.proved.get(&one.wanted) {
            (one.line, one.tried) = (Some(*line), true);
        } else if let Some(missed) = self.open.get(&one.wanted) {
            (one.tried, one.known) = (true, true);
            (one.given_up, one.told) = (missed.given_up, missed.told.clone());
        }
    }

    /// Keeps what was found out about a goal.
    fn keep(&mut self, one: &One) {
        let wanted = || one.wanted.clone();
        match one.line {
            Some(line) => {
                self.proved.insert(wanted(), line);
            }
            None if one.tried => {
                let missed = Missed { given_up: one.given_up, told: one.told.clone() };
                self.open.insert(wanted(), missed);
            }
            None => {}
        }
    }
}

/// As `build_watched`. What was found before is not sought again; a search that was stopped goes on where it was.
pub fn build_again(
    source: &Source,
    memory: &mut Memory,
    tries: u64,
    watch: Watch,
) -> Result<Built, Mistake> {
    if let Some(certificate) = &source.certificate {
        return explicit::build(source, certificate);
    }
    memory.renew(source, tries);
    let program = source.program();
    let mut prover = Prover::new(&program, source.names.clone());
    prover.budget = Budget::of(tries);
    prover.lines = take(&mut memory.lines);
    // Whoever bounds the tries of each obligation wants no more of them for all together.
    let mut beyond = if tries < TRIES { 0 } else { BEYOND };
    let failed = name_steps(&mut prover, memory, source, &mut beyond);
    let mut sought = Sought::of(&Goal::all(source), &program);
    sought.goals.iter_mut().for_each(|one| memory.recall(one));
    let untried = sought.in_turn(&mut prover, watch);
    sought.again(&mut prover, beyond, watch);
    sought.goals.iter().for_each(|one| memory.keep(one));
    let (tries, most_tries) = prover.budget.made();
    let open = sought.left_open(&mut prover);
    let found: Vec<(Goal, Option<Line>)> =
        sought.goals.iter().map(|one| (one.goal, one.line)).collect();
    let mut image = assemble(&program, &prover.lines, Kept::Needed, &found);
    if image.formulas.len() > FORMULAS {
        image = shorter(&program, &prover.lines, &found);
    }
    memory.lines = take(&mut prover.lines);
    Ok(Built { image, open, failed, untried, tries, most_tries })
}

/// What was named is in force: from before, or found now.
fn name_steps(
    prover: &mut Prover,
    memory: &mut Memory,
    source: &Source,
    beyond: &mut u64,
) -> Vec<Mistake> {
    if let Some(named) = &memory.named {
        prover.steps = named.steps.clone();
        prover.facts = named.facts.clone();
        prover.parts = named.parts.clone();
        return Vec::new();
    }
    let taken = source.hints.iter().map(|hint| take_hint(prover, hint, beyond));
    let failed: Vec<Mistake> = taken.filter_map(Result::err).collect();
    if failed.is_empty() {
        let (steps, facts) = (prover.steps.clone(), prover.facts.clone());
        memory.named = Some(Named { steps, facts, parts: prover.parts.clone() });
    }
    failed
}
