//! Row by row: the value of each formula by its tree, no further than needed.

use super::claim::{advance, Claim, Formula, Implication, Join};
use super::input::Input;

pub fn judge(input: &Input) -> bool {
    let claim = Claim::new(input);
    if claim.rows(input.kind).is_none() {
        return false;
    }
    let mut digits = vec![0; claim.leaves.len()];
    loop {
        let row = Row { digits: &digits, range: claim.range };
        if !row.holds(&claim.line) && claim.premises.iter().all(|premise| row.holds(premise)) {
            return false;
        }
        if !advance(&mut digits, &claim.leaves) {
            return true;
        }
    }
}

/// A value for each leaf.
struct Row<'a> {
    digits: &'a [u8],
    range: u8,
}

impl Row<'_> {
    fn holds(&self, implication: &Implication) -> bool {
        self.value(&implication.left) == 0 || self.value(&implication.right) == 1
    }

    fn value(&self, formula: &Formula) -> u8 {
        match formula {
            Formula::Constant(value) => *value,
            Formula::Leaf(leaf) => self.digits[leaf.number],
            Formula::Not(part) => 1 - self.value(part),
            Formula::Join(join, parts) => {
                let [a, b] = &**parts;
                match (join, self.value(a)) {
                    (Join::And, 0) => 0,
                    (Join::Or, 1) => 1,
                    (_, first) => join.of(first, self.value(b), self.range),
                }
            }
        }
    }
}
