//! Single formulas: `read_formula` beside two Rust readers.

pub mod answer;
mod compare;
pub mod generate;
pub mod readers;

use crate::measure;
use crate::random::Random;
use crate::rattle;
use answer::{Counts, Reader, HIGHEST};
use std::hint::black_box;

const DAMAGED: usize = 400_000;
const BYTES: usize = 64_000;

/// Reads all formulas, each of which is well formed.
fn read_all(formulas: &[Vec<u8>], n: Counts, read: Reader) {
    for formula in formulas {
        assert!(read(formula, n).is_ok(), "{formula:?}");
    }
}

/// Compares and times the readers; false if an answer differs or the comparison says little.
pub fn run(random: &mut Random) -> bool {
    let readers: [(&str, Reader); 3] = [
        ("Rattle", rattle::formula),
        ("Rust, by sets of codes", readers::by_sets::read),
        ("Rust, by tables", readers::by_tables::read),
    ];
    let compared = compare::on_damaged(random, &readers, DAMAGED);
    println!("{compared}");
    if !compared.is_useful() || compared.differ > 0 {
        return false;
    }

    let formulas = generate::formulas(random, BYTES);
    let formulas = &formulas;
    let bytes: usize = formulas.iter().map(Vec::len).sum();
    println!("{bytes} bytes in {} formulas", formulas.len());
    let tasks = readers.map(|(_, read)| -> Box<dyn Fn()> {
        Box::new(move || read_all(black_box(formulas), black_box(HIGHEST), black_box(read)))
    });
    measure::print(&readers.map(|(name, _)| name), bytes, "MB/s", &measure::best(&tasks));
    true
}
