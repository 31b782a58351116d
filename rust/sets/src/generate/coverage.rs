//! How often codes, rules, operations and claims occur in images.

use reference::checker::rules;
use reference::checker::{check, decode};
use reference::image::Image;
use std::collections::{BTreeMap, BTreeSet};

/// Counts for one rule.
#[derive(Clone, Copy, Debug, Default, PartialEq, Eq)]
pub struct RuleCounts {
    /// Lines that are justified.
    pub justified: u64,
    /// Lines that do not fit the rule though their premises are justified.
    pub unfit: u64,
    /// Images in which the only unfit line has this rule and an obligation fails by it.
    pub decided: u64,
}

/// Counts over many images.
#[derive(Clone, Debug, Default)]
pub struct Coverage {
    pub codes: BTreeMap<u16, u64>,
    pub rules: BTreeMap<u8, RuleCounts>,
    pub classes: BTreeMap<(u16, u16), u64>,
    /// Images in order that have an instruction of an operation.
    pub operations: BTreeMap<u8, u64>,
    /// Images in order with so many claims.
    pub claims: BTreeMap<usize, u64>,
}

impl Coverage {
    pub fn add(&mut self, bytes: &[u8]) {
        let verdict = check(bytes);
        *self.codes.entry(verdict.code).or_default() += 1;
        if verdict.class != 0 {
            *self.classes.entry((verdict.code, verdict.class)).or_default() += 1;
        }
        if let Ok(image) = decode(bytes) {
            self.add_lines(&image, verdict.code == 22);
            self.add_program(&image);
        }
    }

    fn add_program(&mut self, image: &Image) {
        *self.claims.entry(image.claims.len()).or_default() += 1;
        let instructions = image.program.threads.iter().flatten();
        let operations: BTreeSet<u8> =
            instructions.map(|one| one.fields(&[]).first.operation).collect();
        for operation in operations {
            *self.operations.entry(operation).or_default() += 1;
        }
    }

    fn add_lines(&mut self, image: &Image, failed: bool) {
        let justified = rules::justified_lines(image);
        let mut unfit = Vec::new();
        for (line, &is_justified) in image.lines.iter().zip(&justified) {
            let counts = self.rules.entry(line.rule).or_default();
            let rests_well = line.premises.iter().all(|&n| justified[usize::from(n) - 1]);
            if is_justified {
                counts.justified += 1;
            } else if rests_well {
                counts.unfit += 1;
                unfit.push(line.rule);
            }
        }
        if let ([rule], true) = (&unfit[..], failed) {
            self.rules.entry(*rule).or_default().decided += 1;
        }
    }
}
