//! The generator keeps its promises.
use super::coverage::Coverage;
use super::image;
use reference::checker::check;
use reference::checker::rules::rules;

#[test]
fn a_seed_gives_one_image() {
    for seed in 0..50 {
        assert_eq!(image(seed), image(seed));
    }
}

#[test]
fn every_code_and_rule_occurs() {
    let mut coverage = Coverage::default();
    for seed in 0..12_000 {
        coverage.add(&image(seed));
    }
    for code in [0, 2, 3, 4, 5, 6, 7, 8, 9, 20, 21, 22, 23, 26] {
        let count = coverage.codes.get(&code).copied().unwrap_or(0);
        assert!(count >= 40, "code {code} occurs {count} times");
    }
    for operation in 0..=12 {
        let count = coverage.operations.get(&operation).copied().unwrap_or(0);
        assert!(count >= 500, "operation {operation} occurs in {count} images");
    }
    for claims in [0, 1, 2, 16] {
        let count = coverage.claims.get(&claims).copied().unwrap_or(0);
        assert!(count >= 15, "{claims} claims occur in {count} images");
    }
    for rule in rules() {
        let counts = coverage.rules.get(&rule).copied().unwrap_or_default();
        let enough = counts.justified >= 50 && counts.unfit >= 50 && counts.decided >= 15;
        assert!(enough, "rule {rule}: {counts:?}");
    }
}

/// Instances that are not changed are justified, but for the limits on rows and leaves.
#[test]
fn instances_are_justified() {
    use crate::vectors::rules::frame::{image, instance, operations};
    for rule in rules() {
        for &operation in operations(rule) {
            let accepted = (0..40)
                .filter(|&seed| {
                    check(&image(operation, &instance(rule, operation, seed))).code == 0
                })
                .count();
            assert!(accepted >= 28, "rule {rule}, operation {operation}: {accepted} of 40");
        }
    }
}
