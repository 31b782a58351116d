//! Equal tests in other words: an outline stays accepted when one of its points says the same in another way.

use outline::build::build;
use outline::terms::*;
use outline::text::parse_source::parse;
use outline::text::source::Source;
use reference::checker::check;
use reference::formula::{Assertion, Interval, Test, Value};
use std::path::PathBuf;

/// A comparison in other words.
type Words = fn(&T) -> T;

/// `a = b` as `b = a`.
fn turned(e: &T) -> T {
    match &**e {
        Test::Equal(a, b) => equal(b, a),
        _ => e.clone(),
    }
}

/// `x = 0` as `x < 1`.
fn as_order(e: &T) -> T {
    match &**e {
        Test::Equal(a, b) if **b == Value::Constant(0) => less(a, &constant(1)),
        _ => e.clone(),
    }
}

/// `e` as `not not e`.
fn twice_negated(e: &T) -> T {
    not(&not(e))
}

/// `e` as `e and e`.
fn doubled(e: &T) -> T {
    and(e, e)
}

fn test(e: &T, words: Words) -> T {
    match &**e {
        Test::Not(a) => not(&test(a, words)),
        Test::And(a, b) => and(&test(a, words), &test(b, words)),
        Test::Or(a, b) => or(&test(a, words), &test(b, words)),
        Test::Equal(..) | Test::Less(..) => words(e),
        _ => e.clone(),
    }
}

fn interval(i: &I, words: Words) -> I {
    match &**i {
        Interval::All(e) => all(&test(e, words)),
        Interval::One(_) => i.clone(),
        Interval::Chop(a, b) => chop(&interval(a, words), &interval(b, words)),
        Interval::Both(a, b) => both(&interval(a, words), &interval(b, words)),
        Interval::Either(a, b) => either(&interval(a, words), &interval(b, words)),
    }
}

fn assertion(a: &A, words: Words) -> A {
    match &**a {
        Assertion::Holds(e) => holds(&test(e, words)),
        Assertion::Sees(u, i) => sees(*u, &interval(i, words)),
        Assertion::Both(p, q) => both(&assertion(p, words), &assertion(q, words)),
        Assertion::Either(p, q) => either(&assertion(p, words), &assertion(q, words)),
        Assertion::Start => a.clone(),
    }
}

const WORDS: [(&str, Words); 4] =
    [("turned", turned), ("order", as_order), ("negated", twice_negated), ("doubled", doubled)];

/// Outlines that have room for a leaf more, so that rule 20 can say of two wordings that they say the same.
const NAMES: [&str; 13] = [
    "boot",
    "coherence",
    "load-buffering",
    "message-passing",
    "pad-state",
    "parity",
    "polling",
    "rrc",
    "rrc2",
    "swap-handover",
    "swap-race",
    "tickets",
    "trade",
];

fn example(name: &str) -> Source {
    let folder = PathBuf::from(env!("CARGO_MANIFEST_DIR")).join("../../examples");
    let text = std::fs::read_to_string(folder.join(format!("{name}.outline"))).expect("an outline");
    parse(&text).expect("an outline")
}

/// The places at which an outline in other words has open obligations.
fn open(name: &str) -> Vec<String> {
    let source = example(name);
    let mut found = Vec::new();
    for (t, points) in source.points.iter().enumerate() {
        for (p, point) in points.iter().enumerate() {
            for (how, words) in WORDS {
                let mut other = source.clone();
                let again = assertion(&point.assertion, words);
                if again == point.assertion {
                    continue;
                }
                other.points[t][p].assertion = again;
                let built = build(&other).expect("built");
                if check(&built.image.bytes()).code != 0 {
                    found.push(format!("{name} {t}:{p} {how}: {} open", built.open.len()));
                }
            }
        }
    }
    found
}

#[test]
fn one_point_in_other_words_is_found() {
    let failed: Vec<String> = NAMES.iter().flat_map(|name| open(name)).collect();
    assert!(failed.is_empty(), "{}", failed.join("\n"));
}

#[test]
fn a_certificate_over_the_limit_is_shortened() {
    let source = example("ticket-lock");
    for (how, words) in [WORDS[0], WORDS[2], WORDS[3]] {
        let mut other = source.clone();
        let point = &mut other.points[0][1];
        point.assertion = assertion(&point.assertion, words);
        // As it is found it has more than 500 formulas.
        let built = build(&other).expect("built");
        let found = built.image.formulas.len();
        assert!(built.open.is_empty() && found <= 500, "{how}: {found} formulas");
        assert_eq!(check(&built.image.bytes()).code, 0, "{how}");
    }
}
