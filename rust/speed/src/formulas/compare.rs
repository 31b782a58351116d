//! The readers' answers on damaged input.

use super::answer::{Answer, Counts, Fault, Reader, HIGHEST};
use super::generate::damaged;
use crate::random::Random;
use std::fmt;

/// How many inputs there were, on how many the answers differ, and how often each answer came.
pub struct Compared {
    pub inputs: usize,
    pub differ: usize,
    sorts: [usize; 4],
    range: usize,
    form: usize,
}

impl Compared {
    fn count(&mut self, answer: Answer) {
        match answer {
            Ok(sort) => self.sorts[sort as usize] += 1,
            Err(Fault::Range) => self.range += 1,
            Err(Fault::Form) => self.form += 1,
        }
    }

    /// Whether each answer came often: else the comparison says little.
    pub fn is_useful(&self) -> bool {
        self.sorts.iter().chain([&self.range, &self.form]).all(|&often| often * 100 >= self.inputs)
    }
}

impl fmt::Display for Compared {
    fn fmt(&self, f: &mut fmt::Formatter) -> fmt::Result {
        let [values, tests, intervals, assertions] = self.sorts;
        write!(f, "{} damaged inputs: {} differ ", self.inputs, self.differ)?;
        write!(
            f,
            "({values} values, {tests} tests, {intervals} intervals, {assertions} assertions, "
        )?;
        write!(f, "{} of fault 6, {} of fault 7)", self.range, self.form)
    }
}

fn counts(random: &mut Random) -> Counts {
    let highest = HIGHEST;
    Counts {
        threads: random.below(highest.threads as usize + 1) as u8,
        words: random.below(highest.words as usize + 1) as u8,
        registers: random.below(highest.registers as usize + 1) as u8,
        range: 2 + random.below(15) as u8,
    }
}

/// Compares the readers on so many inputs, and prints the first one on which they differ.
pub fn on_damaged(random: &mut Random, readers: &[(&str, Reader)], inputs: usize) -> Compared {
    let mut compared = Compared { inputs, differ: 0, sorts: [0; 4], range: 0, form: 0 };
    for i in 0..inputs {
        let body = damaged(random);
        // Few formulas fit low counts.
        let n = if i % 2 == 0 { HIGHEST } else { counts(random) };
        let answers: Vec<Answer> = readers.iter().map(|(_, read)| read(&body, n)).collect();
        compared.count(answers[0]);
        if answers.iter().any(|answer| *answer != answers[0]) {
            if compared.differ == 0 {
                println!("{body:?} with {n:?}: {answers:?}");
            }
            compared.differ += 1;
        }
    }
    compared
}
