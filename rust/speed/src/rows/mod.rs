//! Tests by rows and truth tables: `by_rows` and `by_table` beside two Rust functions.

mod by_block;
mod by_row;
mod claim;
mod compare;
mod generate;
pub mod input;
mod timed;

use crate::measure;
use crate::random::Random;
use crate::rattle;
use claim::Claim;
use generate::Generator;
use input::{Input, Judge};
use std::hint::black_box;

const TIMED: usize = 32;
/// The ranges of the tests made by hand.
const RANGES: [u8; 4] = [2, 3, 8, 16];

const JUDGES: [(&str, Judge); 3] = [
    ("Rattle", rattle::judge),
    ("Rust, a block of rows at a time", by_block::judge),
    ("Rust, row by row", by_row::judge),
];

/// What is compared and timed of a kind.
struct Trial {
    name: &'static str,
    compared: Generator,
    inputs: usize,
    timed: Generator,
    by_hand: Vec<(String, Input)>,
}

fn trials() -> [Trial; 2] {
    let pair = |range: u8| (format!("a pair of tests, range {range}"), timed::tests(range));
    let table = ("a table".to_string(), timed::table());
    [
        Trial {
            name: "pairs of tests",
            compared: generate::tests,
            // More than 20,000 of each range.
            inputs: 400_000,
            timed: generate::usual_tests,
            by_hand: RANGES.map(pair).into(),
        },
        Trial {
            name: "truth tables",
            compared: generate::table,
            inputs: 20_000,
            timed: generate::table,
            by_hand: vec![table],
        },
    ]
}

/// Compares and times the functions; false if an answer differs or a comparison says little.
pub fn run(random: &mut Random) -> bool {
    let mut good = true;
    for Trial { name, compared, inputs, timed, by_hand } in trials() {
        let compared = compare::on_random(random, &JUDGES, inputs, compared);
        println!("random {name}: {compared}");
        if !compared.is_useful() || compared.differ > 0 {
            good = false;
            continue;
        }
        for (name, one) in by_hand {
            print_times(&format!("{name}, made by hand"), &[one]);
        }
        let several = timed::several(random, TIMED, timed, by_row::judge);
        print_times(&format!("{TIMED} random {name}"), &several);
    }
    good
}

/// The speed over inputs that are true and have as many rows as there may be. Each input is timed for
/// itself: a short round is more often left alone by what else runs.
fn print_times(name: &str, inputs: &[Input]) {
    let rows_of = |input: &Input| Claim::new(input).rows(input.kind).expect("not too many");
    let rows: usize = inputs.iter().map(rows_of).sum();
    println!("{name}, {rows} rows");
    let mut seconds = [0.0; JUDGES.len()];
    for input in inputs {
        let tasks = JUDGES.map(|(_, judge)| -> Box<dyn Fn()> {
            Box::new(move || assert!(black_box(judge)(black_box(input)), "{input:?}"))
        });
        for (sum, best) in seconds.iter_mut().zip(measure::best(&tasks)) {
            *sum += best;
        }
    }
    measure::print(&JUDGES.map(|(name, _)| name), rows, "million rows/s", &seconds);
}

#[cfg(test)]
mod tests;
