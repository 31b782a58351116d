//! Random formulas over a chosen vocabulary.
//!
//! Side conditions of rules ("x absent", "registers only") are met by taking
//! names out of the vocabulary before a formula is made.

use super::random::Random;
use reference::formula::{Assertion, Interval, Test, Value};
use reference::image::Header;
use std::rc::Rc;

/// The names that a formula may use, by role.
#[derive(Clone, Debug)]
pub struct Vocabulary {
    /// Constants are below it.
    pub range: u8,
    threads: u8,
    registers: Vec<u8>,
    /// Words read as values.
    words: Vec<u8>,
    /// Words under unsync and cov.
    flags: Vec<u8>,
    /// Words under one.
    ones: Vec<u8>,
}

impl Vocabulary {
    /// Every name of the header.
    pub fn of(header: &Header) -> Vocabulary {
        let words: Vec<u8> = (1..=header.counts.words).collect();
        Vocabulary {
            range: header.counts.range,
            threads: header.counts.threads,
            registers: (1..=header.counts.registers).collect(),
            words: words.clone(),
            flags: words.clone(),
            ones: words,
        }
    }

    pub fn without_register(mut self, register: u8) -> Vocabulary {
        self.registers.retain(|&other| other != register);
        self
    }

    pub fn without_flags_of(mut self, word: u8) -> Vocabulary {
        self.flags.retain(|&other| other != word);
        self
    }

    pub fn without_word(mut self, word: u8) -> Vocabulary {
        self.words.retain(|&other| other != word);
        self.ones.retain(|&other| other != word);
        self.without_flags_of(word)
    }

    pub fn registers_only(mut self) -> Vocabulary {
        self.words.clear();
        self.flags.clear();
        self.ones.clear();
        self
    }

    /// Only registers that a thread owns.
    pub fn own(mut self, thread: u8, header: &Header) -> Vocabulary {
        self.registers.retain(|&register| header.owners[usize::from(register) - 1] == thread);
        self.registers_only()
    }

    pub fn thread(&self, random: &mut Random) -> u8 {
        random.between(1, self.threads)
    }

    pub fn value(&self, random: &mut Random, depth: usize) -> Rc<Value> {
        if depth > 0 && random.chance(25) {
            return Value::sum(self.value(random, depth - 1), self.value(random, depth - 1)).into();
        }
        let names = self.registers.len() + self.words.len();
        let choice = random.below(names + 2);
        Rc::new(if choice < self.registers.len() {
            Value::Register(self.registers[choice])
        } else if choice < names {
            Value::Word(self.words[choice - self.registers.len()])
        } else {
            Value::Constant(random.between(0, self.range - 1))
        })
    }

    pub fn test(&self, random: &mut Random, depth: usize) -> Rc<Test> {
        if !self.flags.is_empty() && random.chance(20) {
            let word = *random.pick(&self.flags);
            return Rc::new(if random.chance(50) {
                Test::Unsync(word)
            } else {
                Test::Covered(word)
            });
        }
        if depth == 0 {
            return self.simple_test(random);
        }
        let below = depth - 1;
        match random.below(5) {
            0 => Test::negated(self.test(random, below)).into(),
            1 => Test::and(self.test(random, below), self.test(random, below)).into(),
            2 => Test::or(self.test(random, below), self.test(random, below)).into(),
            _ => self.simple_test(random),
        }
    }

    fn simple_test(&self, random: &mut Random) -> Rc<Test> {
        let (a, b) = (self.value(random, 1), self.value(random, 1));
        Rc::new(match random.below(9) {
            0 => Test::False,
            1..=5 => Test::Equal(a, b),
            _ => Test::Less(a, b),
        })
    }

    pub fn interval(&self, random: &mut Random, depth: usize) -> Rc<Interval> {
        if depth > 0 && random.chance(60) {
            let (a, b) = (self.interval(random, depth - 1), self.interval(random, depth - 1));
            return Rc::new(match random.below(4) {
                0 => Interval::Both(a, b),
                1 => Interval::Either(a, b),
                _ => Interval::Chop(a, b),
            });
        }
        Rc::new(if !self.ones.is_empty() && random.chance(35) {
            Interval::One(*random.pick(&self.ones))
        } else {
            Interval::All(self.test(random, 1))
        })
    }

    /// An assertion without `start`.
    pub fn assertion(&self, random: &mut Random, depth: usize) -> Rc<Assertion> {
        if depth > 0 && random.chance(60) {
            let (a, b) = (self.assertion(random, depth - 1), self.assertion(random, depth - 1));
            let join = if random.chance(50) { Assertion::Both } else { Assertion::Either };
            return Rc::new(join(a, b));
        }
        if random.chance(60) {
            return Assertion::sees(self.thread(random), self.interval(random, 2)).into();
        }
        Assertion::holds(self.clone().registers_only().test(random, 1)).into()
    }
}
