//! Lines by rule 20 with ten leaves and four premises, of which none can be left out.

use super::repeated;
use reference::formula::parse::Counts;
use reference::formula::{Assertion, Interval};
use reference::image::Header;
use reference::proof::{implies, included, seen, Lemma};
use sets::examples::deep::chops;
use sets::generate::harness;

/// Lines with formulas of their own.
const VARIANTS: usize = 40;
const PREMISES: usize = 4;

pub fn image(most: usize) -> Vec<u8> {
    let counts = Counts { threads: 1, words: 8, registers: 0, range: 8 };
    let header = Header::cleared(counts, vec![0; 8], Vec::new());
    let mut plan = harness::plan(harness::program(header, vec![Vec::new()]));
    plan.spare = (0..VARIANTS).map(line).collect();
    repeated(&plan, &[20], most)
}

/// both(A1, both(A2, both(A3, both(A4, either(C, D))))) to the same with each B for its A, from A to B four times.
fn line(variant: usize) -> Lemma {
    let premises: Vec<Lemma> =
        (0..PREMISES).map(|index| weakened(variant * PREMISES + index)).collect();
    let last = || {
        let sees = |index| Assertion::sees(1, chops(200 + variant + index, 2));
        Assertion::either(sees(0), sees(1))
    };
    let side = |of: fn(&Lemma) -> Assertion| {
        premises.iter().rev().fold(last(), |rest, premise| Assertion::both(of(premise), rest))
    };
    let left = side(|premise| premise.assertions().0.as_ref().clone());
    let right = side(|premise| premise.assertions().1.as_ref().clone());
    implies(20, left, right, &premises.iter().collect::<Vec<&Lemma>>())
}

/// Thread 1 sees I, so it sees either(I, J).
fn weakened(seed: usize) -> Lemma {
    let (i, j) = (chops(seed, 1), chops(seed + 1, 1));
    seen(1, &included(42, i.clone(), Interval::either(i, j), &[]))
}
