//! Every kind of clutter occurs, and most images are accepted.
use super::image;
use reference::checker::check;
use reference::image::written::Written;
use std::collections::{BTreeMap, BTreeSet};

#[test]
fn a_seed_gives_one_image() {
    for seed in 0..50 {
        assert_eq!(image(seed), image(seed));
    }
}

/// The lines on which these lines rest, and these lines.
fn below(image: &Written, lines: impl Iterator<Item = u16>) -> BTreeSet<u16> {
    let mut waiting: Vec<u16> = lines.collect();
    let mut met = BTreeSet::new();
    while let Some(number) = waiting.pop() {
        if met.insert(number) {
            waiting.extend(&image.lines[usize::from(number) - 1].premises);
        }
    }
    met
}

fn formulas_named(image: &Written, lines: &BTreeSet<u16>) -> BTreeSet<u16> {
    let code = image.threads.iter().flatten();
    let halves = code.flat_map(|one| [Some(one.first), one.second]).flatten();
    let mut named: BTreeSet<u16> = halves.map(|half| half.formula).collect();
    named.extend(&image.outline);
    for line in lines {
        let line = &image.lines[usize::from(*line) - 1];
        named.extend([line.left, line.right]);
    }
    named
}

/// What kinds of clutter an accepted image has.
fn kinds(image: &Written) -> BTreeMap<&'static str, bool> {
    let by_obligations = below(image, image.obligations.iter().copied());
    let by_claims = below(image, image.claims.iter().map(|claim| claim.line));
    let kept: BTreeSet<u16> = by_obligations.union(&by_claims).copied().collect();
    let all: BTreeSet<u16> = (1..=image.lines.len() as u16).collect();
    let dead: BTreeSet<u16> = all.difference(&kept).copied().collect();
    let premises = |number: &u16| &image.lines[usize::from(*number) - 1].premises;
    let named = formulas_named(image, &kept);
    let named_by_any = formulas_named(image, &all);
    let formulas: BTreeSet<u16> = (1..=image.formulas.len() as u16).collect();
    let bytes = |number: &u16| &image.formulas[usize::from(*number) - 1];
    let distinct: BTreeSet<&Vec<u8>> = named.iter().filter(|&&n| n > 0).map(bytes).collect();
    BTreeMap::from([
        ("dead line", !dead.is_empty()),
        ("dead line before one that is kept", dead.iter().any(|n| Some(n) < kept.last())),
        ("dead chain", dead.iter().any(|n| premises(n).iter().any(|p| dead.contains(p)))),
        (
            "dead line on one that is kept",
            dead.iter().any(|n| premises(n).iter().any(|p| kept.contains(p))),
        ),
        ("kept by a claim alone", by_claims.difference(&by_obligations).next().is_some()),
        (
            "equal formulas that are named",
            distinct.len() < named.iter().filter(|&&n| n > 0).count(),
        ),
        ("formula that dead lines name", named_by_any.len() > named.len()),
        ("formula that nothing names", !formulas.is_subset(&named_by_any)),
        ("nothing to trim", dead.is_empty() && formulas.is_subset(&named)),
    ])
}

#[test]
fn every_kind_occurs() {
    let (mut accepted, mut counts) = (0, BTreeMap::new());
    for seed in 0..3000 {
        let bytes = image(seed);
        if check(&bytes).code != 0 {
            continue;
        }
        accepted += 1;
        let image = Written::read(&bytes).expect("accepted");
        for (kind, occurs) in kinds(&image) {
            *counts.entry(kind).or_insert(0) += u32::from(occurs);
        }
    }
    println!("{accepted} accepted: {counts:?}");
    assert!((2000..2900).contains(&accepted), "{accepted} of 3000 are accepted");
    assert!(counts.values().all(|&count| count >= 60), "{counts:?}");
}
