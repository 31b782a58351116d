//! The further rules backwards, where an inference may use them: proposals like those of the published ones.

use crate::infer::backward::{units, Way};
use crate::infer::ground::Ground;
use crate::infer::templates::{cov, one_eq};
use crate::search::prover::At;
use crate::search::write::cuts;
use crate::terms::*;
use reference::formula::atoms::Atoms;
use reference::formula::Value;
use reference::image::Instruction;

impl Ground<'_> {
    /// Rules 51, 52 and 54: ways to `u sees J`, where J names the word that is written.
    pub fn further_before_write(&mut self, at: At, c: &Instruction, u: u8, j: &I) -> Vec<Way> {
        if !self.prover.goes_further() {
            return vec![];
        }
        let mut ways: Vec<Way> = by_fetched_value(at, c, u, j).into_iter().map(units).collect();
        ways.extend(self.by_landing(c, u, j));
        ways
    }

    /// Rule 54: the front of J is one write of the word, said by itself or by two chains that agree on it alone.
    fn by_landing(&mut self, c: &Instruction, u: u8, j: &I) -> Vec<Way> {
        let Some(store) = c.store() else { return vec![] };
        let (x, new): (u8, I) = (store.word, store.settled().into());
        let values: Vec<I> =
            self.sample.word_values(x).into_iter().map(|v| one_eq(x, &constant(v))).collect();
        let mut ways = Vec::new();
        for front in &values {
            if !self.includes(&chop(front, &new), j) {
                continue;
            }
            ways.push(units(vec![sees(u, front)]));
            for (n, one) in values.iter().enumerate() {
                for other in &values[n + 1..] {
                    let chain = |end: &I| sees(u, &chop(front, end));
                    ways.push(units(vec![chain(one), chain(other)]));
                }
            }
        }
        ways
    }

    /// Rules 55 and 56 over a store: a clause that says where the new write has come in, without that write.
    pub fn landings(&mut self, at: At, clause: &[A]) -> Vec<Vec<A>> {
        let c = self.program.instruction(at.thread, at.point).expect("an instruction").clone();
        let Some(store) = c.store().filter(|_| self.prover.goes_further()) else { return vec![] };
        let new: I = store.settled().into();
        let mut out = Vec::new();
        for (u, j) in clause.iter().filter_map(|a| a.as_sees()) {
            let Some(before) = without(j, &new) else { continue };
            let others = clause.iter().filter(|a| !a.has_word(store.word));
            out.push(others.cloned().chain([sees(u, &before)]).collect());
        }
        unique(out)
    }
}

/// Rules 51 and 52: a test that the new value passes too.
fn by_fetched_value(at: At, c: &Instruction, u: u8, j: &I) -> Vec<Vec<A>> {
    let Some(e) = j.as_all() else { return vec![] };
    let mut out = Vec::new();
    if let Some(write) = c.exchange() {
        let after = all(&replaced(e, Value::Word(write.word), &write.value));
        out.push(vec![sees(u, j), sees(u, &after)]);
    }
    if let Some(added) = c.fetch_add() {
        let sum = sum(&word(added.word), &added.value);
        let after = all(&replaced(e, Value::Word(added.word), &sum));
        out.push(vec![sees(u, j), sees(at.thread, &chop(&cov(added.word), &after))]);
    }
    out
}

/// The chain without one of its parts.
fn without(chain: &I, part: &I) -> Option<I> {
    let (a, b) = chain.as_chop()?;
    if a == part {
        return Some(b.clone());
    }
    if b == part {
        return Some(a.clone());
    }
    let inner = cuts(chain).into_iter().next()?;
    Some(chop(&inner.0, &without(&inner.1, part)?))
}

#[cfg(test)]
mod tests {
    use super::*;
    use crate::infer::clauses::clauses;
    use crate::text::parse_source::parse;
    use reference::checker::rules::Rules;
    use std::collections::BTreeSet;

    /// A rule, what must be so before, the instruction, and what is so behind it.
    const CASES: &[(u8, &str, &str, &str)] = &[
        (51, "b sees [x != 2] and b sees [1 != 2]", "r <- exchange x := 1", "b sees [x != 2]"),
        (
            52,
            "b sees [x < 3] and a sees [cov x] ; [x + 1 < 3]",
            "r <- fetch-add x + 1",
            "b sees [x < 3]",
        ),
        (54, "b sees one x = 0", "x := 1", "b sees one x = 0 ; one x = 1"),
        (
            57,
            "b sees one x = 0 ; one x = 1 and b sees one x = 0 ; one x = 2",
            "x := 1",
            "b sees one x = 0 ; one x = 1",
        ),
        (
            55,
            "b sees one x = 0 ; one x = 2",
            "x := 1",
            "b sees one x = 0 ; one x = 1 ; one x = 2 or b sees one x = 0 ; one x = 2 ; one x = 1",
        ),
    ];

    #[test]
    fn what_a_further_rule_proposes_is_certified_by_it() {
        for (rule, before, instruction, after) in CASES {
            let text = format!(
                "word x = 0\nthread a registers r {{ {before} }} {instruction} {{ {after} }}\n\
                 thread b {{ true }} x := 2 {{ true }}"
            );
            let source = parse(&text).unwrap_or_else(|e| panic!("{e}: {text}"));
            let program = source.program();
            let mut ground = Ground::of(&program, source.names.clone());
            ground.prover.go_by(Rules::WithFurther);
            let at = At { thread: 1, point: 0 };
            let (p, q) = (program.assertion(1, 0), program.assertion(1, 1));
            let names = &source.names;
            let told = |clause: &Vec<A>| -> BTreeSet<String> {
                let told = clause.iter().map(|a| names.assertion(a));
                told.map(|text| text.replace("b sees [1 != 2]", "1 != 2")).collect()
            };
            let wanted: BTreeSet<BTreeSet<String>> = clauses(p).iter().map(told).collect();
            let goal = clauses(q).remove(0);
            let mut ways: Vec<Way> = goal.iter().flat_map(|a| ground.before(at, a)).collect();
            ways.extend(ground.landings(at, &goal).into_iter().map(|clause| vec![clause]));
            let ways: Vec<BTreeSet<BTreeSet<String>>> =
                ways.iter().map(|way| way.iter().map(told).collect()).collect();
            assert!(ways.contains(&wanted), "{rule}: {wanted:?} in {ways:?}");
            let line = ground.prover.whole(at, p, q).unwrap_or_else(|| panic!("{rule}: {before}"));
            let used = ground.prover.lines.needed(&[line]);
            let rules: BTreeSet<u8> =
                used.iter().map(|n| ground.prover.lines.entries[*n].rule).collect();
            assert!(rules.contains(rule), "{rule}: by {rules:?}");
        }
    }
}
