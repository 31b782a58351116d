//! A block of rows at a time, the way the Rattle function goes: a column of values for each formula.

use super::claim::{advance, Claim, Formula, Implication, Join, Leaf};
use super::input::Input;

const ROWS: usize = 1024;

type Column = [u8; ROWS];

pub fn judge(input: &Input) -> bool {
    let claim = Claim::new(input);
    if claim.rows(input.kind).is_none() {
        return false;
    }
    let mut block = Block::new(&claim);
    let above = &claim.leaves[block.inside..];
    let mut digits = vec![0; above.len()];
    loop {
        block.set(&digits);
        if !block.holds(&claim) {
            return false;
        }
        if !advance(&mut digits, above) {
            return true;
        }
    }
}

struct Block {
    rows: usize,
    /// So many leaves, from the first, go through their values inside the block.
    inside: usize,
    range: u8,
    /// A column for each leaf.
    leaves: Vec<Column>,
    /// 1 where the line fails and the premises so far are true.
    fails: Column,
}

impl Block {
    /// A block is as many rows as the first leaves have and a column holds.
    fn new(claim: &Claim) -> Block {
        let (mut rows, mut inside) = (1, 0);
        let mut leaves = vec![[0; ROWS]; claim.leaves.len()];
        for (leaf, column) in claim.leaves.iter().zip(&mut leaves) {
            let more = rows * usize::from(leaf.choices);
            if more > ROWS {
                break;
            }
            fill(column, *leaf, rows);
            (rows, inside) = (more, inside + 1);
        }
        Block { rows, inside, range: claim.range, leaves, fails: [0; ROWS] }
    }

    /// The leaves above the block have one value in all its rows.
    fn set(&mut self, digits: &[u8]) {
        for (column, digit) in self.leaves[self.inside..].iter_mut().zip(digits) {
            column[..self.rows].fill(*digit);
        }
    }

    fn holds(&mut self, claim: &Claim) -> bool {
        self.fails[..self.rows].fill(1);
        self.keep(&claim.line, 0);
        for premise in &claim.premises {
            self.keep(premise, 1);
        }
        self.fails[..self.rows].iter().all(|&fails| fails == 0)
    }

    /// Of the rows that are left, those where the implication is so.
    fn keep(&mut self, implication: &Implication, so: u8) {
        let (mut left, mut right) = ([0; ROWS], [0; ROWS]);
        self.put(&implication.left, &mut left);
        self.put(&implication.right, &mut right);
        let sides = left[..self.rows].iter().zip(&right[..self.rows]);
        for (fails, (left, right)) in self.fails[..self.rows].iter_mut().zip(sides) {
            *fails &= (left & !right) ^ so;
        }
    }

    fn put(&self, formula: &Formula, out: &mut Column) {
        let rows = self.rows;
        match formula {
            Formula::Constant(value) => out[..rows].fill(*value),
            Formula::Leaf(leaf) => {
                out[..rows].copy_from_slice(&self.leaves[leaf.number][..rows]);
            }
            Formula::Not(part) => {
                self.put(part, out);
                out[..rows].iter_mut().for_each(|value| *value = 1 - *value);
            }
            Formula::Join(join, parts) => {
                let [a, b] = &**parts;
                self.put(a, out);
                if let Formula::Leaf(leaf) = b {
                    let column = &self.leaves[leaf.number][..rows];
                    combine(*join, self.range, &mut out[..rows], column);
                } else {
                    let mut second = [0; ROWS];
                    self.put(b, &mut second);
                    combine(*join, self.range, &mut out[..rows], &second[..rows]);
                }
            }
        }
    }
}

/// The column of a leaf that keeps each value for so many rows.
fn fill(column: &mut Column, leaf: Leaf, rows: usize) {
    let values = (0..leaf.choices).cycle();
    for (part, value) in column.chunks_mut(rows).zip(values) {
        part.fill(value);
    }
}

/// A loop for each operation, so that the compiler makes it work on many rows at a time.
fn combine(join: Join, range: u8, a: &mut [u8], b: &[u8]) {
    #[inline(always)]
    fn each(a: &mut [u8], b: &[u8], of: impl Fn(u8, u8) -> u8) {
        a.iter_mut().zip(b).for_each(|(a, b)| *a = of(*a, *b));
    }
    match join {
        Join::Sum => each(a, b, |a, b| Join::Sum.of(a, b, range)),
        Join::Equal => each(a, b, |a, b| Join::Equal.of(a, b, range)),
        Join::Less => each(a, b, |a, b| Join::Less.of(a, b, range)),
        Join::And => each(a, b, |a, b| Join::And.of(a, b, range)),
        Join::Or => each(a, b, |a, b| Join::Or.of(a, b, range)),
    }
}
