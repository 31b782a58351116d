//! Conjuncts in fewer leaves: what a thread sees in one view, with the tests that go with it.

use crate::terms::*;
use std::collections::BTreeMap;

/// How far conjuncts are packed.
#[derive(Debug, Clone, Copy, PartialEq, Eq, PartialOrd, Ord)]
pub enum Level {
    /// What a thread sees in one leaf, as far as nothing else is said with it.
    Views,
    /// Tests of registers in one view, too.
    Tests,
    /// Tests beside one view go into it.
    Guarded,
}

/// So many names of a test can be told by rows.
const MOST_NAMES: usize = 4;

#[derive(Default)]
struct Pack {
    views: BTreeMap<u8, Vec<I>>,
    tests: Vec<T>,
    guarded: Vec<(T, u8, Vec<I>)>,
    rest: Vec<A>,
}

/// The conjuncts of a point of this thread, packed.
pub fn packed(own: u8, list: &[A], level: Level) -> Vec<A> {
    let mut pack = Pack::default();
    list.iter().for_each(|a| pack.add(a, level));
    pack.conjuncts(own)
}

impl Pack {
    fn add(&mut self, a: &A, level: Level) {
        let mut literals = Vec::new();
        disjuncts(a, &mut literals);
        let held: Vec<T> = literals.iter().filter_map(|l| l.as_holds().cloned()).collect();
        let seen: Vec<(u8, I)> =
            literals.iter().filter_map(|l| l.as_sees()).map(|(u, i)| (u, i.clone())).collect();
        let whole = held.len() + seen.len() == literals.len();
        match (&held[..], &seen[..]) {
            ([], [(u, i)]) if whole => self.views.entry(*u).or_default().push(i.clone()),
            (_, []) if whole && level >= Level::Tests => self.tests.extend(fold_right(&held, or)),
            ([_, ..], [(u, i)]) if whole && level >= Level::Guarded => {
                let guard = fold_right(&held, or).expect("a test");
                self.add_guarded(guard, *u, i);
            }
            _ => self.rest.push(a.clone()),
        }
    }

    fn add_guarded(&mut self, guard: T, u: u8, i: &I) {
        if let Some(e) = i.as_all() {
            self.views.entry(u).or_default().push(all(&or(&guard, e)));
            return;
        }
        match self.guarded.iter_mut().find(|(other, v, _)| *other == guard && *v == u) {
            Some((_, _, list)) => list.push(i.clone()),
            None => self.guarded.push((guard, u, vec![i.clone()])),
        }
    }

    fn conjuncts(mut self, own: u8) -> Vec<A> {
        if let Some(e) = fold_right(&self.tests, and) {
            self.views.entry(own).or_default().push(all(&e));
        }
        let mut out = self.rest;
        for (guard, u, list) in self.guarded {
            let seen = fold_right(&list, both).expect("a view");
            out.push(either(&holds(&guard), &sees(u, &seen)));
        }
        for (u, list) in self.views {
            // Tests first, as one.
            let tests: Vec<T> = list.iter().filter_map(|i| i.as_all().cloned()).collect();
            let mut parts: Vec<I> = in_rows(&tests).iter().map(all).collect();
            let said =
                |i: &I| list.iter().any(|other| other.as_both().is_some_and(|(a, _)| a == i));
            parts.extend(list.iter().filter(|i| i.as_all().is_none() && !said(i)).cloned());
            out.push(sees(u, &fold_right(&parts, both).expect("a view")));
        }
        out
    }
}

/// Tests joined, as far as rows can tell what they give: of few names each.
fn in_rows(tests: &[T]) -> Vec<T> {
    let names = |e: &T| registers_of(e.as_ref()).len() + words_of(e.as_ref()).len();
    let mut joined: Vec<Vec<T>> = Vec::new();
    for e in tests {
        let with = |list: &Vec<T>| fold_right(&[&list[..], std::slice::from_ref(e)].concat(), and);
        let room = |list: &&mut Vec<T>| with(list).is_some_and(|e| names(&e) <= MOST_NAMES);
        match joined.iter_mut().find(room) {
            Some(list) => list.push(e.clone()),
            None => joined.push(vec![e.clone()]),
        }
    }
    joined.iter().filter_map(|list| fold_right(list, and)).collect()
}

fn disjuncts(a: &A, out: &mut Vec<A>) {
    match a.as_either() {
        Some((p, q)) => {
            disjuncts(p, out);
            disjuncts(q, out);
        }
        None => out.push(a.clone()),
    }
}

/// Clauses that differ in tests and in what one thread sees throughout: one view has the tests of them all.
pub fn merged(own: u8, list: &[A]) -> Vec<A> {
    let mut groups: Vec<(Vec<A>, u8, Vec<T>)> = Vec::new();
    let mut out = Vec::new();
    for a in list {
        match apart(own, a) {
            Some((rest, u, e)) => {
                match groups.iter_mut().find(|(other, v, _)| *other == rest && *v == u) {
                    Some((_, _, tests)) => tests.push(e),
                    None => groups.push((rest, u, vec![e])),
                }
            }
            None => out.push(a.clone()),
        }
    }
    for (rest, u, tests) in groups {
        let seen = sees(u, &all(&fold_right(&tests, and).expect("a test")));
        out.push(fold_right(&[rest, vec![seen]].concat(), either).expect("a view"));
    }
    out
}

/// The clause as other views, and a test that one thread sees throughout; a clause of tests alone is the own thread's.
fn apart(own: u8, a: &A) -> Option<(Vec<A>, u8, T)> {
    let mut literals = Vec::new();
    disjuncts(a, &mut literals);
    let mut tests: Vec<T> = literals.iter().filter_map(|l| l.as_holds().cloned()).collect();
    let views: Vec<A> = literals.iter().filter(|l| l.as_sees().is_some()).cloned().collect();
    if tests.len() + views.len() < literals.len() {
        return None;
    }
    let whole = |a: &A| a.as_sees().and_then(|(u, i)| i.as_all().map(|e| (u, e.clone())));
    let own_view = views.iter().filter_map(whole).find(|(u, _)| *u == own);
    let chosen = own_view.or_else(|| views.iter().find_map(whole));
    let Some((u, e)) = chosen else {
        let e = fold_right(&tests, or)?;
        return Some((views, own, e));
    };
    tests.push(e.clone());
    let rest = views.into_iter().filter(|a| whole(a) != Some((u, e.clone()))).collect();
    Some((rest, u, fold_right(&tests, or)?))
}

#[cfg(test)]
mod tests {
    use super::*;
    use crate::infer::templates::{one, r_eq, x_eq};

    #[test]
    fn views_of_one_thread_become_one_leaf() {
        let list = [sees(1, &one(1)), sees(1, &x_eq(2, 0)), r_eq(1, 0), sees(2, &one(1))];
        let views = packed(1, &list, Level::Views);
        let joined = sees(1, &both(&x_eq(2, 0), &one(1)));
        assert_eq!(views, [r_eq(1, 0), joined, sees(2, &one(1))]);
        assert_eq!(packed(1, &list, Level::Tests).len(), 2);
    }

    #[test]
    fn a_test_beside_a_view_goes_into_it() {
        let list = [either(&r_eq(1, 0), &sees(2, &x_eq(1, 3)))];
        assert_eq!(packed(1, &list, Level::Views), list);
        let test = or(&equal(&register(1), &constant(0)), &equal(&word(1), &constant(3)));
        assert_eq!(packed(1, &list, Level::Guarded), [sees(2, &all(&test))]);
    }
}
