//! What the letters of the rules stand for in an instance.

use crate::images::{double, program, single, with_code, FALSE, ZERO};
use reference::formula::{Assertion, Interval, Test, Value};
use reference::image::{Access, Instruction, Note, Program};
use std::fmt;
use std::rc::Rc;

/// The word and the registers of every instruction, and what its formulas name besides.
const X: u8 = 1;
const Y: u8 = 2;
const R: u8 = 1;
const Q: u8 = 2;
const S: u8 = 3;

/// One instruction for each operation, each at the point of its number. Register 2 may start with any value.
pub fn every_operation() -> Program {
    let (f, h) = (5, 6);
    let code = vec![
        single(0, R, 0, f),
        single(1, R, X, 0),
        single(2, R, X, 0),
        single(3, X, 0, f),
        single(4, X, 0, f),
        single(5, X, 0, f),
        single(6, 0, 0, FALSE),
        single(7, X, R, f),
        single(8, X, R, f),
        double(9, X, 0, f, Q, h),
        double(10, X, 0, f, Q, h),
        double(11, X, 0, f, Q, h),
        double(12, R, 0, f, Q, h),
    ];
    let mut image = with_code(2, code);
    image.header.marks[usize::from(Q) - 1] = 0;
    image.header.start[usize::from(X) - 1] = 4;
    // f is s + 1, h is r + s: with both replaced at once r does not become f in h.
    image.formulas.push(vec![3, 1, S, 0, 1]);
    image.formulas.push(vec![3, 1, R, 1, S]);
    assert_eq!(image.formulas[usize::from(ZERO) - 1], [0, 0]);
    program(&image)
}

/// What a formula is made to name besides what it names anyway.
#[derive(Clone, Copy, Debug, PartialEq, Eq)]
pub enum Named {
    RegisterHeld,
    RegisterSeen,
    Word,
    Unsync,
    Covered,
    One,
}

pub const REGISTER: [Named; 2] = [Named::RegisterHeld, Named::RegisterSeen];
pub const FLAGS: [Named; 2] = [Named::Unsync, Named::Covered];
pub const WORD: [Named; 4] = [Named::Word, Named::Unsync, Named::Covered, Named::One];
const ALL: [Named; 6] = [
    Named::RegisterHeld,
    Named::RegisterSeen,
    Named::Word,
    Named::Unsync,
    Named::Covered,
    Named::One,
];

impl Named {
    /// A list of views that names it; nothing of `holds` is there.
    fn interval(self) -> Interval {
        match self {
            Named::One => Interval::One(X),
            other => Interval::all(other.test()),
        }
    }

    fn test(self) -> Test {
        match self {
            Named::RegisterHeld | Named::RegisterSeen => is(Value::Register(R), 1),
            Named::Word => is(Value::Word(X), 1),
            Named::Unsync => Test::Unsync(X),
            Named::Covered => Test::Covered(X),
            Named::One => panic!("no test says that a write is the same"),
        }
    }
}

fn is(value: Value, constant: u8) -> Test {
    Test::equal(value, Value::Constant(constant))
}

/// What an instance is made of besides the row of its rule.
#[derive(Clone, Copy)]
pub struct Choice<'a> {
    pub program: &'a Program,
    pub operation: u8,
    /// Which thread u is.
    pub observer: u8,
    /// Letters that must not name something, with what they must not name.
    pub barred: &'a [(char, Named)],
    /// What a letter names though it is barred.
    pub slip: Option<(char, Named)>,
    pub tests: Tests,
    /// Every letter that a rule binds by words has what it says; else something near.
    pub bound: bool,
}

/// How the tests E, F, e and g are chosen.
#[derive(Clone, Copy, Debug, PartialEq, Eq)]
pub enum Tests {
    /// None follows from another.
    Distinct,
    /// F and g follow from E and e.
    Implied,
    /// The other way round.
    NotImplied,
}

impl fmt::Display for Choice<'_> {
    fn fmt(&self, out: &mut fmt::Formatter<'_>) -> fmt::Result {
        let Choice { operation, observer, slip, tests, bound, .. } = self;
        write!(out, "operation {operation}, u = {observer}, {slip:?}, {tests:?}, bound {bound}")
    }
}

impl Choice<'_> {
    fn instruction(&self) -> &Instruction {
        self.program.instruction(1, self.operation).expect("an instruction")
    }

    /// What a letter names.
    fn named(&self, letter: char) -> impl Iterator<Item = Named> + '_ {
        let free = ALL.into_iter().filter(move |&named| !self.barred.contains(&(letter, named)));
        let slip = self.slip.filter(|(slipped, _)| *slipped == letter);
        free.chain(slip.map(|(_, named)| named))
    }

    pub fn thread(&self, letter: char) -> u8 {
        match letter {
            't' => 1,
            'u' => self.observer,
            _ => panic!("no thread {letter}"),
        }
    }

    pub fn word(&self) -> u8 {
        X
    }

    pub fn assertion(&self, letter: char) -> Assertion {
        // Two of these have ten leaves together, as many as a truth table may have.
        let seen = Test::and(is(Value::Word(Y), mark(letter)), is(Value::Register(Q), 1));
        let own = Assertion::both(
            Assertion::holds(is(Value::Register(S), mark(letter))),
            Assertion::sees(2, Interval::all(seen)),
        );
        self.named(letter).fold(own, |assertion, named| {
            let more = match named {
                Named::RegisterHeld => Assertion::holds(named.test()),
                other => Assertion::sees(2, other.interval()),
            };
            Assertion::both(assertion, more)
        })
    }

    pub fn interval(&self, letter: char) -> Interval {
        let own = Interval::all(is(Value::Word(Y), mark(letter)));
        let seen = self.named(letter).filter(|named| *named != Named::RegisterHeld);
        seen.fold(own, |interval, named| Interval::both(interval, named.interval()))
    }

    pub fn test(&self, letter: char) -> Test {
        let held = |constant: u8| is(Value::Register(S), constant);
        match (self.tests, letter) {
            (Tests::Implied, 'E' | 'e') => held(1),
            (Tests::Implied, _) => Test::negated(held(2)),
            (Tests::NotImplied, 'E' | 'e') => Test::negated(held(2)),
            (Tests::NotImplied, _) => held(1),
            (Tests::Distinct, 'e' | 'g') => {
                Test::and(held(mark(letter)), Named::RegisterHeld.test())
            }
            (Tests::Distinct, _) => {
                let own = is(Value::Word(Y), mark(letter));
                let tests = self.named(letter).filter(|named| *named != Named::One);
                tests.fold(own, |test, named| Test::and(test, named.test()))
            }
        }
    }

    pub fn value(&self, letter: char) -> Rc<Value> {
        let start = self.program.header.start[usize::from(X) - 1];
        match letter {
            'x' => Value::Word(X).into(),
            'r' => Value::Register(if self.bound { R } else { Q }).into(),
            'f' => self.operand(),
            'n' => self.new_value(),
            'v' => Value::Constant(if self.bound { start } else { start + 1 }).into(),
            '0' => Value::Constant(0).into(),
            _ => panic!("no value {letter}"),
        }
    }

    /// The register or the word of the instruction, where it is replaced.
    pub fn leaf(&self, letter: char) -> Value {
        match letter {
            'r' => Value::Register(R),
            'x' => Value::Word(X),
            _ => panic!("nothing replaces {letter}"),
        }
    }

    /// f: the formula of the access or of the assignment; for a load, which has none, what the others have.
    fn operand(&self) -> Rc<Value> {
        let instruction = self.instruction();
        let access = instruction.access().and_then(Access::operand);
        let note = instruction.notes().first().map(|note| &note.value);
        let others = Value::sum(Value::Register(S), Value::Constant(1));
        access.or(note).cloned().unwrap_or_else(|| others.into())
    }

    /// n: what an exchange writes, and what a fetch-add does; told the wrong way round where letters are not bound.
    fn new_value(&self) -> Rc<Value> {
        let sum = Value::sum(Value::Register(R), self.operand());
        if (self.operation == 8) == self.bound {
            sum.into()
        } else {
            self.operand()
        }
    }

    /// The registers and formulas that `{r := f}` or `{q := h}` replaces.
    pub fn notes(&self, letter: char) -> Vec<Note> {
        let notes = self.instruction().notes();
        match letter {
            'r' if self.instruction().access().is_none() => notes.to_vec(),
            'r' => vec![Note::new(R, self.operand())],
            'q' if self.bound => notes.last().cloned().into_iter().collect(),
            'q' => vec![Note::new(Q, Value::Constant(7))],
            _ => panic!("no register {letter}"),
        }
    }
}

/// A constant for each letter, so that no two stand for the same formula.
fn mark(letter: char) -> u8 {
    let place = "PQRS ABDIJKEF".find(letter).or_else(|| "eg".find(letter));
    place.unwrap_or_else(|| panic!("no letter {letter}")) as u8 % 8
}
