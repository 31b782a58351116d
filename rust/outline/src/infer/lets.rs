//! Names for what an outline says again and again.

use crate::terms::*;
use crate::text::lex::KEYWORDS;
use crate::text::source::Source;
use reference::formula::Assertion;

/// What is said less often, or in fewer characters, gets no name.
const TIMES: usize = 3;
const LENGTH: usize = 24;

/// Names for what the points of `found` say several times and those of `asked` do not name.
pub fn named(asked: &Source, found: &Source) -> Vec<(String, A)> {
    let mut said: Vec<(A, usize)> = Vec::new();
    for (old, new) in asked.points.iter().flatten().zip(found.points.iter().flatten()) {
        if old.hole || old.assertion != new.assertion {
            note(&new.assertion, &mut said);
        }
    }
    let long = |a: &A| found.names.assertion(a).chars().count() >= LENGTH;
    said.retain(|(a, times)| *times >= TIMES && long(a));
    // The largest first, so that a part of another is named only where it stands alone.
    said.sort_by_key(|(a, _)| std::cmp::Reverse(found.names.assertion(a).chars().count()));
    let mut taken: Vec<String> = KEYWORDS.iter().map(|k| k.to_string()).collect();
    for list in [&found.names.words, &found.names.registers, &found.names.threads] {
        taken.extend(list.iter().cloned());
    }
    taken.extend(found.names.shorts.iter().map(|(_, name)| name.clone()));
    let mut out = Vec::new();
    for (a, _) in said {
        let name = fresh(found, &a, &taken);
        taken.push(name.clone());
        out.push((name, a));
    }
    out
}

/// Counts the conjuncts of an assertion.
fn note(a: &A, said: &mut Vec<(A, usize)>) {
    match &**a {
        Assertion::Both(p, q) => {
            note(p, said);
            note(q, said);
        }
        _ => match said.iter_mut().find(|(known, _)| known == a) {
            Some((_, times)) => *times += 1,
            None => said.push((a.clone(), 1)),
        },
    }
}

/// A name after the first word that it speaks of, else after its thread.
fn fresh(source: &Source, a: &A, taken: &[String]) -> String {
    let names = &source.names;
    let word = words_of(a.as_ref()).first().map(|x| names.word(*x));
    let base = word.or(names.threads.first().map(String::as_str)).unwrap_or("known");
    let mut letters = base.chars();
    let first = letters.next().map(|c| c.to_ascii_uppercase());
    let base: String = first.into_iter().chain(letters).collect();
    (1..)
        .map(|n| format!("{base}_{n}"))
        .find(|name| !taken.contains(name))
        .expect("a number is free")
}
