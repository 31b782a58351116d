//! The answers on random tests or tables.

use super::claim::Claim;
use super::generate::Generator;
use super::input::Judge;
use crate::random::Random;
use std::fmt;

/// How many inputs there were, on how many the answers differ, and how often each answer came.
pub struct Compared {
    inputs: usize,
    pub differ: usize,
    yes: usize,
    no: usize,
    /// No, since there are too many rows.
    many: usize,
}

impl Compared {
    /// Whether each answer came often: else the comparison says little.
    pub fn is_useful(&self) -> bool {
        [self.yes, self.no, self.many].iter().all(|often| often * 100 >= self.inputs)
    }
}

impl fmt::Display for Compared {
    fn fmt(&self, f: &mut fmt::Formatter) -> fmt::Result {
        let Compared { inputs, differ, yes, no, many } = self;
        write!(f, "{inputs}, {differ} differ ({yes} yes, {no} no, {many} with too many rows)")
    }
}

/// Compares the judges on so many inputs, and prints the first one on which they differ.
pub fn on_random(
    random: &mut Random,
    judges: &[(&str, Judge)],
    inputs: usize,
    input: Generator,
) -> Compared {
    let mut compared = Compared { inputs, differ: 0, yes: 0, no: 0, many: 0 };
    for _ in 0..inputs {
        let input = input(random);
        let answers: Vec<bool> = judges.iter().map(|(_, judge)| judge(&input)).collect();
        let claim = Claim::new(&input);
        let count = match (answers[0], claim.rows(input.kind)) {
            (true, _) => &mut compared.yes,
            (false, Some(_)) => &mut compared.no,
            (false, None) => &mut compared.many,
        };
        *count += 1;
        if answers.iter().any(|answer| *answer != answers[0]) {
            if compared.differ == 0 {
                println!("{input:?}: {answers:?}");
            }
            compared.differ += 1;
        }
    }
    compared
}
