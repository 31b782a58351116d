//! The rules backwards: what must be so before an instruction, so that a literal is so behind it.
//!
//! These are proposals, each from the form of a rule's left side; whether one serves is for the search to say.

use crate::infer::ground::Ground;
use crate::infer::templates::{cov, one_eq, x_eq};
use crate::search::prover::At;
use crate::search::write::{cuts, unsync};
use crate::terms::*;
use reference::checker::rules::{before_load, before_notes, keeps, Load};
use reference::formula::atoms::{Atom, Atoms};
use reference::formula::{Assertion, Value};
use reference::image::Instruction;

/// Clauses that are wanted together, each a list of literals.
pub type Way = Vec<Vec<A>>;

/// Each literal as a clause of its own.
pub fn units(literals: Vec<A>) -> Way {
    literals.into_iter().map(|a| vec![a]).collect()
}

impl Ground<'_> {
    /// Ways to a literal over the instruction.
    pub fn before(&mut self, at: At, literal: &A) -> Vec<Way> {
        let whole = self.program.instruction(at.thread, at.point).expect("an instruction").clone();
        if let Some(notes) = whole.assignments() {
            return vec![units(vec![before_notes(literal, notes)])];
        }
        let literal = match whole.pair_note() {
            Some(note) => before_notes(literal, std::slice::from_ref(note)),
            None => literal.clone(),
        };
        let first = whole.first_half();
        let mut ways: Vec<Way> = self.kept(&first, &literal).into_iter().map(units).collect();
        match &*literal {
            Assertion::Holds(e) => ways.extend(before_test(at, &first, e).into_iter().map(units)),
            Assertion::Sees(u, j) => ways.extend(self.before_view(at, &first, *u, j)),
            _ => {}
        }
        ways
    }

    /// Rule 1: the literal itself, or something stronger that the instruction keeps.
    fn kept(&mut self, c: &Instruction, literal: &A) -> Vec<Vec<A>> {
        let stays = |a: &A| keeps(c, a.as_ref()) == Some(true);
        if stays(literal) {
            return vec![vec![literal.clone()]];
        }
        let mut strong = self.stronger(literal);
        if let Assertion::Sees(u, j) = &**literal {
            strong.extend(cuts(j).into_iter().flat_map(|(a, b)| [sees(*u, &a), sees(*u, &b)]));
        }
        unique(strong).into_iter().filter(stays).map(|a| vec![a]).collect()
    }

    fn before_view(&mut self, at: At, c: &Instruction, u: u8, j: &I) -> Vec<Way> {
        let Some(access) = c.access() else { return vec![] };
        let (x, own) = (access.word(), u == at.thread);
        if access.result().is_some_and(|r| j.has_register(r)) {
            return vec![];
        }
        let mut out = Vec::new();
        if own {
            out.extend(joined_views(c, x, j).into_iter().map(|k| units(vec![sees(u, &k)])));
        }
        if c.load().is_none() && j.has_word(x) {
            out.extend(self.before_write(at, c, u, j));
            out.extend(self.further_before_write(at, c, u, j));
        }
        out
    }

    /// Rules 4 and 5 over a load: the front of a chain is read and passes the clause's tests, or is passed by.
    pub fn chains(&mut self, at: At, clause: &[A]) -> Vec<Vec<A>> {
        let c = self.program.instruction(at.thread, at.point).expect("an instruction").clone();
        let Some(load) = c.load() else { return vec![] };
        let (x, r) = (load.word, load.register);
        let tests = clause.iter().filter_map(|a| a.as_holds()).filter(|e| e.has_register(r));
        let Some(e) = fold_right(&tests.cloned().collect::<Vec<T>>(), or) else { return vec![] };
        let others: Vec<A> = clause.iter().filter(|a| !a.has_register(r)).cloned().collect();
        let mut heads = vec![before_load(&e, &load).into()];
        for v in self.sample.word_values(x) {
            if self.passes(&e, Value::Register(r), v) {
                heads.extend([x_eq(x, v), one_eq(x, &constant(v))]);
            }
        }
        let mut out = Vec::new();
        for (n, a) in others.iter().enumerate() {
            let Some((_, j)) = a.as_sees().filter(|(u, _)| *u == at.thread) else { continue };
            let mut rests = vec![j.clone()];
            if c.joined_word().is_some() {
                rests.push(chop(&unsync(x), j));
            }
            for (head, rest) in heads.iter().flat_map(|h| rests.iter().map(move |r| (h, r))) {
                let mut chained = others.clone();
                chained[n] = sees(at.thread, &chop(head, rest));
                out.push(chained);
            }
        }
        out
    }
}

/// Rules 3 and 47 with 10: a register that is read has a value that was seen.
fn before_test(at: At, c: &Instruction, e: &T) -> Vec<Vec<A>> {
    let Some(access) = c.access() else { return vec![] };
    let Some(r) = access.result().filter(|r| e.has_register(*r)) else { return vec![] };
    let x = access.word();
    let seen: I = before_load(e, &Load { register: r, word: x }).into();
    let mut out = vec![vec![sees(at.thread, &seen)]];
    if c.load().is_none() {
        out.push(vec![sees(at.thread, &chop(&cov(x), &seen))]);
    }
    out
}

/// Rules 5 and 10: what comes with a write that is read, and what comes behind covered ones.
fn joined_views(c: &Instruction, x: u8, j: &I) -> Vec<I> {
    let again = j.has_atom(|a| matches!(a, Atom::Unsync(y) | Atom::Covered(y) if y == x));
    let named = j.has_word(x);
    let mut out = Vec::new();
    if !again && (!named || c.load().is_some()) && c.joined_word().is_some() {
        out.push(chop(&unsync(x), j));
    }
    if !named && c.covered_word().is_some() {
        out.push(chop(&cov(x), j));
        out.push(chop(&cov(x), &chop(&unsync(x), j)));
    }
    out
}

#[cfg(test)]
mod tests {
    use super::*;
    use crate::infer::clauses::clauses;
    use crate::text::parse_source::parse;
    use std::collections::BTreeSet;

    /// A rule, what must be so before, the instruction, and what is so behind it.
    const CASES: &[(u8, &str, &str, &str)] = &[
        (1, "a sees [y = 0]", "x := 1", "a sees [y = 0]"),
        (2, "q = 0", "r := q", "r = 0"),
        (3, "a sees [x = 1]", "r <- x", "r = 1"),
        (4, "a sees [x = 0] ; [x = 1]", "r <- x", "r != 1 or a sees [x = 1]"),
        (5, "a sees [x != 1] ; [unsync x] ; [y = 1]", "r <-acq x", "r != 1 or a sees [y = 1]"),
        (6, "a sees one x", "x := 1", "a sees [x = 1]"),
        (7, "a sees one x and b sees [x = 0]", "x := 1", "b sees [x = 0] ; [x = 1]"),
        (
            8,
            "a sees one x and b sees [x = 0] and a sees [y = 1]",
            "x :=rel 1",
            "b sees [x = 0] ; [unsync x] ; [y = 1]",
        ),
        (9, "b sees [x != 2] and holds (1 != 2)", "x := 1", "b sees [x != 2]"),
        (10, "a sees [cov x] ; [x = 1]", "r <- exchange x := 2", "r = 1"),
        (11, "a sees [cov x] ; one x", "swap x := 1", "a sees one x = 1"),
        (
            12,
            "a sees [cov x] ; one x and b sees [cov x] ; one x",
            "swap x := 1",
            "b sees [cov x] ; one x = 1",
        ),
        (
            13,
            "a sees [cov x] ; one x and b sees [cov x] ; one x and a sees [y = 1]",
            "swap x := 1",
            "b sees [cov x] ; [unsync x] ; [y = 1]",
        ),
        (10, "a sees [cov x] ; [unsync x] ; [y = 1]", "swap x := 1", "a sees [y = 1]"),
        (47, "a sees [x = 1]", "r <- exchange x := 2", "r = 1"),
        (48, "a sees [cov x] ; one x = 0", "r <- fetch-add x + 1", "a sees one x = 1"),
        (5, "a sees [unsync x] ; [y = 1]", "r <- exchange x := 2", "a sees [y = 1]"),
        (
            49,
            "a sees [cov x] ; one x and b sees [cov x] ; one x",
            "r <- exchange x := 1",
            "b sees [cov x] ; one x = 1",
        ),
        (50, "a sees one x", "x := 1 | r := 2", "a sees [x = 1]"),
    ];

    /// What is proposed before the instruction, each way as a set of clauses.
    fn proposed(ground: &mut Ground, at: At, wanted: &A) -> Vec<BTreeSet<BTreeSet<String>>> {
        let names = ground.prover.names.clone();
        let told = |clause: &Vec<A>| clause.iter().map(|a| names.assertion(a)).collect();
        let goal = clauses(wanted).remove(0);
        let mut ways: Vec<Way> = goal.iter().flat_map(|a| ground.before(at, a)).collect();
        ways.extend(ground.chains(at, &goal).into_iter().map(|clause| vec![clause]));
        ways.iter().map(|way| way.iter().map(told).collect()).collect()
    }

    #[test]
    fn what_a_rule_proposes_is_certified_by_it() {
        for (rule, before, instruction, after) in CASES {
            let text = format!(
                "word x = 0 word y = 0\nthread a registers r, q {{ {before} }} {instruction} {{ {after} }}\n\
                 thread b {{ true }} y := 1 {{ true }} x := 2 {{ true }}"
            );
            let source = parse(&text).unwrap_or_else(|e| panic!("{e}: {text}"));
            let program = source.program();
            let mut ground = Ground::of(&program, source.names.clone());
            let at = At { thread: 1, point: 0 };
            let (p, q) = (program.assertion(1, 0), program.assertion(1, 1));
            let names = &source.names;
            let wanted: BTreeSet<BTreeSet<String>> = clauses(p)
                .iter()
                .map(|clause| clause.iter().map(|a| names.assertion(a)).collect())
                .collect();
            let ways = proposed(&mut ground, at, q);
            let plain = |way: &BTreeSet<BTreeSet<String>>| {
                let text = |s: &BTreeSet<String>| {
                    s.iter().map(|t| t.replace("b sees [1 != 2]", "1 != 2")).collect()
                };
                way.iter().map(text).collect::<BTreeSet<BTreeSet<String>>>()
            };
            assert!(ways.iter().any(|way| plain(way) == wanted), "{rule}: {wanted:?} in {ways:?}");
            let line = ground.prover.whole(at, p, q);
            let line =
                line.unwrap_or_else(|| panic!("{rule}: {before} to {after} is not certified"));
            let used = ground.prover.lines.needed(&[line]);
            let rules: BTreeSet<u8> =
                used.iter().map(|n| ground.prover.lines.entries[*n].rule).collect();
            assert!(rules.contains(rule), "{rule}: by {rules:?}");
        }
    }
}
