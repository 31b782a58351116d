//! The further rules against the machine: of random lines that look like theirs, those that they give are true in every
//! state tried.

use reference::checker::rules::{follows_by, further, Rules};
use reference::explore::truth::{is_true, sees};
use reference::explore::{reachable, Bounds};
use reference::formula::replace::{Replace, Replacement};
use reference::formula::{Assertion, Interval, Test, Value};
use reference::image::{Header, Instruction, Program, Statement, Thread};
use reference::machine::{take, State, Step};
use sets::generate::programs;
use sets::generate::random::Random;
use sets::generate::vocabulary::Vocabulary;
use std::collections::BTreeMap;
use std::rc::Rc;

const BOUNDS: Bounds = Bounds { steps: 4, writes: 3, starts: 6, states: usize::MAX };

/// A rule's line with its premise, perhaps changed, about an instruction of the first thread.
struct Drawn<'a> {
    random: &'a mut Random,
    names: Vocabulary,
    threads: u8,
    action: Instruction,
}

type I = Rc<Interval>;
type A = Rc<Assertion>;

impl Drawn<'_> {
    fn interval(&mut self) -> I {
        // Most intervals are of few names, so that some are true.
        match self.random.below(3) {
            0 => Interval::One(self.word()).into(),
            1 => self.settled(),
            _ => self.names.interval(self.random, 2),
        }
    }

    fn word(&self) -> u8 {
        self.action.word().unwrap_or(1)
    }

    /// one x = n for some n, or what the instruction writes.
    fn settled(&mut self) -> I {
        if let (Some(store), true) = (self.action.store(), self.random.chance(50)) {
            return store.settled().into();
        }
        let value = self.random.between(0, self.names.range - 1);
        Interval::one_equal(self.word(), Value::Constant(value)).into()
    }

    fn sees(&mut self, i: &I) -> A {
        let thread = self.random.between(1, self.threads);
        Assertion::sees(thread, i.clone()).into()
    }

    fn triple(&self, left: impl Into<A>, right: impl Into<A>) -> Statement {
        Statement::Triple { thread: 1, point: 0, left: left.into(), right: right.into() }
    }

    /// Rules 51 and 52, whose side conditions are met mostly.
    fn by_value(&mut self) -> Statement {
        let mut names = self.names.clone();
        if self.random.chance(80) {
            names = names.without_flags_of(self.word());
            names = names.without_register(self.action.result().unwrap_or(0));
        }
        let e = names.test(self.random, 1);
        let seer = self.random.between(1, self.threads);
        let replaced = |by: Rc<Value>| -> I {
            let leaf = Value::Word(self.word());
            Interval::All(e.replace(&[Replacement { leaf, by }])).into()
        };
        let (other, after) = match (self.action.exchange(), self.action.fetch_add()) {
            (Some(write), _) => (seer, replaced(write.value)),
            (_, Some(added)) => {
                let sum = replaced(Value::sum(Value::Word(added.word), added.value).into());
                (1, Interval::chop(Interval::all(Test::Covered(added.word)), sum).into())
            }
            _ => (seer, self.interval()),
        };
        let seen = Assertion::sees(seer, Interval::All(e.clone()));
        self.triple(Assertion::both(seen.clone(), Assertion::sees(other, after)), seen)
    }

    /// Rule 54, and rule 55 behind one of it.
    fn landing(&mut self, rule: u8) -> (Statement, Vec<Statement>) {
        let seer = self.random.between(1, self.threads);
        let new: I = match self.action.store() {
            Some(store) => store.settled().into(),
            None => self.settled(),
        };
        let word = if self.random.chance(90) { self.word() } else { self.names.range % 2 + 1 };
        let one: I = Interval::One(word).into();
        let (i, j) = (self.interval(), self.interval());
        let seen = |i: Interval| Assertion::sees(seer, i);
        let behind = Interval::chop(j.clone(), new.clone());
        let first = self.triple(seen(Interval::both(one.clone(), j.clone())), seen(behind.clone()));
        if rule == 54 {
            return (first, Vec::new());
        }
        let j: I = Interval::both(one.clone(), j).into();
        let left = seen(Interval::chop(Interval::both(i.clone(), one), j.clone()));
        let between = Interval::chop(i.clone(), Interval::chop(new, j));
        let right = seen(Interval::either(between, Interval::chop(i, behind)));
        (self.triple(left, right), vec![first])
    }

    /// A line by this rule, mostly.
    fn line(&mut self, rule: u8) -> (Statement, Vec<Statement>) {
        let (i, j) = (self.interval(), self.interval());
        let alone = |statement| (statement, Vec::new());
        match rule {
            51 | 52 => alone(self.by_value()),
            54 | 55 => self.landing(rule),
            53 => {
                let left = Assertion::both(self.sees(&i), self.sees(&j)).into();
                let e = match self.random.chance(60) {
                    true => Test::False.into(),
                    false => self.names.clone().registers_only().test(self.random, 1),
                };
                alone(Statement::Implication { left, right: Assertion::Holds(e).into() })
            }
            56 => {
                let seer = self.random.between(1, self.threads);
                let seen = |i: Interval| Assertion::sees(seer, i);
                let left = seen(Interval::Either(i.clone(), j.clone())).into();
                let right =
                    Assertion::either(Assertion::sees(seer, i), Assertion::sees(seer, j)).into();
                alone(Statement::Implication { left, right })
            }
            57 | 58 => {
                let nothing: I = Interval::all(Test::False).into();
                let left = match rule {
                    57 => Interval::Chop(i.clone(), nothing).into(),
                    _ => Interval::Chop(nothing, i.clone()).into(),
                };
                alone(Statement::Inclusion { left, right: i })
            }
            59 => {
                let k = self.interval();
                let both = |other: &I| Interval::Both(i.clone(), other.clone());
                let left = Interval::both(i.clone(), Interval::Either(j.clone(), k.clone())).into();
                alone(Statement::Inclusion {
                    left,
                    right: Interval::either(both(&j), both(&k)).into(),
                })
            }
            _ => {
                let (p, q) = (self.sees(&i), self.sees(&j));
                let left = Assertion::Both(p.clone(), q.clone()).into();
                alone(Statement::Implication { left, right: if rule == 60 { p } else { q } })
            }
        }
    }
}

/// A program whose first thread begins with an instruction that the rule may be about.
fn drawn_program(random: &mut Random, rule: u8) -> Option<(Program, Instruction)> {
    let operations: &[u8] = match rule {
        51 => &[7, 7, 7, 8, 5],
        52 => &[8, 8, 8, 7, 5],
        54 | 55 => &[3, 4, 3, 4, 5],
        _ => &[1, 3, 4, 5],
    };
    let mut header: Header = programs::header(random);
    header.counts.threads = header.counts.threads.max(2);
    let action = programs::instruction(random, &header, 1, 2, operations)?;
    let threads: Vec<Thread> = (1..=header.counts.threads)
        .map(|thread| match thread {
            1 => vec![action.clone()],
            _ => programs::thread(random, &header, thread, 3),
        })
        .collect();
    let truth: A = Assertion::truth().into();
    let outline = threads.iter().map(|code| vec![truth.clone(); code.len() + 1]).collect();
    Some((Program { header, threads, outline }, action))
}

/// How often the left side was true in these states; fails where the right one is not.
fn live(program: &Program, states: &[State], statement: &Statement) -> usize {
    let is = |a: &Assertion, state: &State| is_true(a, state, &program.header);
    let mut live = 0;
    for state in states {
        match statement {
            Statement::Triple { left, right, .. } if is(left, state) => {
                let mut before = state.clone();
                before.points[0] = 0;
                let step = |position| take(&program.threads, &before, Step { thread: 1, position });
                for next in (0..BOUNDS.writes).filter_map(step) {
                    live += 1;
                    assert!(is(right, &next), "{left} to {right} in {state:?}");
                }
            }
            Statement::Implication { left, right } if is(left, state) => {
                live += 1;
                assert!(is(right, state), "{left} to {right} in {state:?}");
            }
            Statement::Inclusion { left, right } if sees(state, 1, left) => {
                live += 1;
                assert!(sees(state, 1, right), "{left} in {right} in {state:?}");
            }
            _ => {}
        }
    }
    live
}

#[test]
fn lines_by_further_rules_are_true() {
    let mut counts: BTreeMap<u8, [usize; 3]> = BTreeMap::new();
    for seed in 0..30_000 {
        let mut random = Random::new(seed);
        let rule = 51 + (seed % 11) as u8;
        let Some((program, action)) = drawn_program(&mut random, rule) else { continue };
        let names = Vocabulary::of(&program.header);
        let threads = program.header.counts.threads;
        let mut drawn = Drawn { random: &mut random, names, threads, action };
        let (statement, premises) = drawn.line(rule);
        let premises: Vec<&Statement> = premises.iter().collect();
        let by = |rule: u8, premises: &[&Statement]| {
            follows_by(Rules::WithFurther, &program, rule, &statement, premises)
        };
        let count = counts.entry(rule).or_default();
        count[0] += 1;
        let rests_well =
            premises.iter().all(|one| follows_by(Rules::WithFurther, &program, 54, one, &[]));
        if rests_well && by(rule, &premises) {
            let states = reachable(&program, BOUNDS);
            count[1] += 1;
            count[2] += live(&program, &states[..states.len().min(60)], &statement);
        }
    }
    for rule in further::rules() {
        let [drawn, given, live] = counts[&rule];
        println!("rule {rule}: {drawn} lines, {given} given, {live} live checks");
        assert!(given > 0 && live > 0, "rule {rule} was never live");
    }
}
