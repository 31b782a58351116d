//! The forms of literals that are tried beyond what the rules themselves ask for.

use crate::infer::ground::Ground;
use crate::terms::*;
use reference::formula::{Assertion, Interval, Test, Value};

pub fn r_eq(r: u8, v: u8) -> A {
    holds(&equal(&register(r), &constant(v)))
}
pub fn r_ne(r: u8, v: u8) -> A {
    holds(&not(&equal(&register(r), &constant(v))))
}
pub fn x_eq(x: u8, v: u8) -> I {
    all(&equal(&word(x), &constant(v)))
}
pub fn x_ne(x: u8, v: u8) -> I {
    all(&not(&equal(&word(x), &constant(v))))
}
pub fn one(x: u8) -> I {
    Interval::One(x).into()
}
/// `one x = v`
pub fn one_eq(x: u8, v: &V) -> I {
    both(&one(x), &all(&equal(&word(x), v)))
}
/// `[cov x]`
pub fn cov(x: u8) -> I {
    all(&Test::Covered(x).into())
}

impl Ground<'_> {
    /// Literals that give this one.
    pub fn stronger(&mut self, a: &A) -> Vec<A> {
        match &**a {
            Assertion::Sees(u, i) => {
                self.stronger_intervals(i).iter().map(|k| sees(*u, k)).collect()
            }
            Assertion::Holds(e) => self.stronger_tests(a, e),
            _ => vec![],
        }
    }

    /// `r = v` for each value that passes a test of one register.
    fn stronger_tests(&mut self, a: &A, e: &T) -> Vec<A> {
        let registers = registers_of(e.as_ref());
        let Some(&r) = registers.first().filter(|_| registers.len() == 1) else { return vec![] };
        let values = self.sample.register_values(r);
        let passing = values.into_iter().filter(|v| self.passes(e, Value::Register(r), *v));
        passing.map(|v| r_eq(r, v)).filter(|b| b != a).collect()
    }

    /// Is the test true once the leaf has this value, whatever else is?
    pub fn passes(&mut self, e: &T, leaf: Value, v: u8) -> bool {
        let there = replaced(e, leaf, &constant(v));
        self.prover.by_rows(&truth(), &there)
    }

    fn stronger_intervals(&mut self, i: &I) -> Vec<I> {
        let mut out = match &**i {
            Interval::All(e) => self.stronger_views(e),
            Interval::One(x) => {
                let values = self.sample.word_values(*x);
                values.iter().map(|v| one_eq(*x, &constant(*v))).collect()
            }
            Interval::Chop(a, b) => {
                let mut out = vec![a.clone(), b.clone()];
                out.extend(self.stronger_intervals(a).iter().map(|k| chop(k, b)));
                if b.as_chop().is_none() {
                    out.extend(self.stronger_intervals(b).iter().map(|k| chop(a, k)));
                }
                out
            }
            _ => vec![],
        };
        out.retain(|k| k != i);
        unique(out)
    }

    /// `[x = v]` and `one x = v` for each value that passes a test of one word.
    fn stronger_views(&mut self, e: &T) -> Vec<I> {
        let words = words_of(e.as_ref());
        let Some(&x) = words.first().filter(|_| words.len() == 1) else { return vec![] };
        if !registers_of(e.as_ref()).is_empty() {
            return vec![];
        }
        let values = self.sample.word_values(x);
        let passing = values.into_iter().filter(|v| self.passes(e, Value::Word(x), *v));
        passing.flat_map(|v| [x_eq(x, v), one_eq(x, &constant(v))]).collect()
    }

    /// Literals of one register or one word, which claims and exclusions are made of, each with its negation.
    pub fn units(&self) -> Vec<(A, A)> {
        let sample = &self.sample;
        let mut out = Vec::new();
        for r in 1..=sample.registers() {
            for v in sample.register_values(r) {
                out.push((r_eq(r, v), r_ne(r, v)));
            }
        }
        for x in 1..=sample.words() {
            for v in sample.word_values(x) {
                for u in self.program.thread_numbers() {
                    out.push((sees(u, &x_eq(x, v)), sees(u, &x_ne(x, v))));
                }
            }
        }
        out
    }
}
