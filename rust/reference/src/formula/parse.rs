//! Reading the prefix form by recursive descent.
//!
//! Bytes are taken from the left, each is judged when it is taken, and the first
//! fault ends the reading; so the fault reported is the first from the left.

use super::nesting::NESTING;
use super::{Assertion, Formula, Interval, Sort, Test, Value};
use std::rc::Rc;

/// Why the bytes are no formula.
#[derive(Clone, Copy, Debug, PartialEq, Eq)]
pub enum Fault {
    /// A number is outside its range.
    Range,
    /// The bytes do not form a tree of the right sorts.
    Form,
}

/// The counts of the header, which bound the numbers in formulas.
#[derive(Clone, Copy, Debug, PartialEq, Eq)]
pub struct Counts {
    pub threads: u8,
    pub words: u8,
    pub registers: u8,
    /// How many values there are.
    pub range: u8,
}

/// Reads a whole formula of any sort.
pub fn parse(bytes: &[u8], counts: Counts) -> Result<Formula, Fault> {
    let mut reader = Reader { rest: bytes, counts, registers_only: false };
    let formula = reader.formula()?;
    match reader.rest {
        [] => Ok(formula),
        _ => Err(Fault::Form),
    }
}

struct Reader<'a> {
    rest: &'a [u8],
    counts: Counts,
    /// Below `holds` no word and no flag of a word may stand.
    registers_only: bool,
}

type Parsed<T> = Result<Rc<T>, Fault>;

impl Reader<'_> {
    fn byte(&mut self) -> Result<u8, Fault> {
        let (&first, rest) = self.rest.split_first().ok_or(Fault::Form)?;
        self.rest = rest;
        Ok(first)
    }

    /// A number that names one of `count` things, counted from 1.
    fn name(&mut self, count: u8) -> Result<u8, Fault> {
        let number = self.byte()?;
        if number == 0 || number > count {
            return Err(Fault::Range);
        }
        Ok(number)
    }

    fn constant(&mut self) -> Result<u8, Fault> {
        let number = self.byte()?;
        if number >= self.counts.range {
            return Err(Fault::Range);
        }
        Ok(number)
    }

    /// The word behind a code that may not stand under `holds`.
    fn word(&mut self) -> Result<u8, Fault> {
        if self.registers_only {
            return Err(Fault::Form);
        }
        self.name(self.counts.words)
    }

    /// The code of a part at this depth.
    fn code(&mut self, depth: usize) -> Result<u8, Fault> {
        if depth > NESTING {
            return Err(Fault::Form);
        }
        self.byte()
    }

    fn formula(&mut self) -> Result<Formula, Fault> {
        let first = *self.rest.first().ok_or(Fault::Form)?;
        Ok(match sort_of_code(first).ok_or(Fault::Form)? {
            Sort::Value => Formula::Value(self.value(1)?),
            Sort::Test => Formula::Test(self.test(1)?),
            Sort::Interval => Formula::Interval(self.interval(1)?),
            Sort::Assertion => Formula::Assertion(self.assertion(1)?),
        })
    }

    fn value(&mut self, depth: usize) -> Parsed<Value> {
        let below = depth + 1;
        Ok(Rc::new(match self.code(depth)? {
            0 => Value::Constant(self.constant()?),
            1 => Value::Register(self.name(self.counts.registers)?),
            2 => Value::Word(self.word()?),
            3 => Value::Sum(self.value(below)?, self.value(below)?),
            _ => return Err(Fault::Form),
        }))
    }

    fn test(&mut self, depth: usize) -> Parsed<Test> {
        let below = depth + 1;
        Ok(Rc::new(match self.code(depth)? {
            8 => Test::False,
            9 => Test::Equal(self.value(below)?, self.value(below)?),
            10 => Test::Less(self.value(below)?, self.value(below)?),
            11 => Test::Not(self.test(below)?),
            12 => Test::And(self.test(below)?, self.test(below)?),
            13 => Test::Or(self.test(below)?, self.test(below)?),
            14 => Test::Unsync(self.word()?),
            15 => Test::Covered(self.word()?),
            _ => return Err(Fault::Form),
        }))
    }

    fn interval(&mut self, depth: usize) -> Parsed<Interval> {
        let below = depth + 1;
        Ok(Rc::new(match self.code(depth)? {
            16 => Interval::All(self.test(below)?),
            17 => Interval::One(self.word()?),
            18 => Interval::Chop(self.interval(below)?, self.interval(below)?),
            19 => Interval::Both(self.interval(below)?, self.interval(below)?),
            20 => Interval::Either(self.interval(below)?, self.interval(below)?),
            _ => return Err(Fault::Form),
        }))
    }

    fn assertion(&mut self, depth: usize) -> Parsed<Assertion> {
        let below = depth + 1;
        Ok(Rc::new(match self.code(depth)? {
            24 => Assertion::Sees(self.name(self.counts.threads)?, self.interval(below)?),
            25 => Assertion::Both(self.assertion(below)?, self.assertion(below)?),
            26 => Assertion::Either(self.assertion(below)?, self.assertion(below)?),
            27 => Assertion::Start,
            28 => Assertion::Holds(self.register_test(below)?),
            _ => return Err(Fault::Form),
        }))
    }

    fn register_test(&mut self, depth: usize) -> Parsed<Test> {
        self.registers_only = true;
        let test = self.test(depth)?;
        self.registers_only = false;
        Ok(test)
    }
}

/// The sort to which a code belongs; none for an unknown code.
pub fn sort_of_code(code: u8) -> Option<Sort> {
    match code {
        0..=3 => Some(Sort::Value),
        8..=15 => Some(Sort::Test),
        16..=20 => Some(Sort::Interval),
        24..=28 => Some(Sort::Assertion),
        _ => None,
    }
}
