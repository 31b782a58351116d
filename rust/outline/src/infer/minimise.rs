//! A smaller and plainer outline that is still certified: conjuncts are left out one by one, and a word that is not one of
//! its two values is said to be the other.

use crate::infer::assemble::{with_parts, Assembled, Given, Parts};
use crate::infer::sample::Place;
use crate::infer::sample::Sample;
use crate::terms::*;
use crate::text::source::Source;
use reference::formula::{Assertion, Interval, Test, Value};

/// The effort that minimising may take.
const EFFORT: u64 = 3_000_000;

/// Leaves out conjuncts that nothing needs, in the order of the points; what is given stays.
pub fn minimised(
    assembled: &mut Assembled,
    source: &Source,
    mut parts: Parts,
    given: &Given,
) -> Parts {
    let until = assembled.effort() + EFFORT;
    let all: Vec<(Place, A)> =
        parts.iter().flat_map(|(place, list)| list.iter().map(|a| (*place, a.clone()))).collect();
    for (place, a) in all {
        if given.get(&place) == Some(&a) {
            continue;
        }
        if assembled.effort() > until {
            break;
        }
        let mut fewer = parts.clone();
        fewer.get_mut(&place).expect("a point").retain(|b| *b != a);
        if assembled.open(&with_parts(source, &fewer), 1).is_empty() {
            parts = fewer;
        }
    }
    parts
}

/// `[x = w]` for `[x != v]` where v and w are all values that x has: at all points, else at those points where it is
/// certified.
pub fn plainer(
    assembled: &mut Assembled,
    source: &Source,
    parts: Parts,
    given: &Given,
    sample: &Sample,
) -> Parts {
    let plain = |place: &Place, a: &A| match given.get(place) == Some(a) {
        true => a.clone(),
        false => plain_assertion(a, sample),
    };
    let at = |place: &Place, list: &[A]| list.iter().map(|a| plain(place, a)).collect::<Vec<A>>();
    let whole: Parts = parts.iter().map(|(place, list)| (*place, at(place, list))).collect();
    if whole == parts || assembled.open(&with_parts(source, &whole), 1).is_empty() {
        return whole;
    }
    let mut parts = parts;
    for (place, list) in whole {
        let mut one = parts.clone();
        one.insert(place, list);
        if one != parts && assembled.open(&with_parts(source, &one), 1).is_empty() {
            parts = one;
        }
    }
    parts
}

fn plain_assertion(a: &A, sample: &Sample) -> A {
    match &**a {
        Assertion::Both(p, q) => both(&plain_assertion(p, sample), &plain_assertion(q, sample)),
        Assertion::Either(p, q) => either(&plain_assertion(p, sample), &plain_assertion(q, sample)),
        Assertion::Sees(u, i) => sees(*u, &plain_interval(i, sample)),
        Assertion::Holds(_) | Assertion::Start => a.clone(),
    }
}

fn plain_interval(i: &I, sample: &Sample) -> I {
    match &**i {
        Interval::All(e) => all(&plain_test(e, sample)),
        Interval::One(_) => i.clone(),
        Interval::Chop(a, b) => chop(&plain_interval(a, sample), &plain_interval(b, sample)),
        Interval::Both(a, b) => both(&plain_interval(a, sample), &plain_interval(b, sample)),
        Interval::Either(a, b) => either(&plain_interval(a, sample), &plain_interval(b, sample)),
    }
}

fn plain_test(e: &T, sample: &Sample) -> T {
    match &**e {
        Test::And(a, b) => and(&plain_test(a, sample), &plain_test(b, sample)),
        Test::Or(a, b) => or(&plain_test(a, sample), &plain_test(b, sample)),
        Test::Not(inner) => other_value(inner, sample).unwrap_or_else(|| e.clone()),
        _ => e.clone(),
    }
}

/// `x = w`, if the test is `x = v` and x has no values but v and w.
fn other_value(e: &T, sample: &Sample) -> Option<T> {
    let Test::Equal(x, v) = &**e else { return None };
    let (Value::Word(word), Value::Constant(v)) = (&**x, &**v) else { return None };
    let values = sample.word_values(*word);
    let other: Vec<u8> = values.iter().copied().filter(|w| w != v).collect();
    (other.len() == 1 && values.len() == 2).then(|| equal(x, &constant(other[0])))
}
