//! Search for implications: rule 20 over premises that cover every case.

use crate::search::cases::cases;
use crate::search::prover::{implication, Line, Prover};
use crate::search::support::expand;
use crate::terms::*;
use reference::checker::rules::table::implies_by_table;
use reference::checker::rules::MOST_PREMISES;
use reference::formula::Assertion;

impl Prover<'_> {
    /// A line for P to Q, if even the wider search finds one.
    pub fn implication(&mut self, p: &A, q: &A) -> Option<Line> {
        self.implied(p, q)
            .or_else(|| self.widened(|all| all.implied(p, q)))
            .or_else(|| self.implied_in_one_wording(p, q))
    }

    /// A line for P to Q, if the search finds one.
    pub fn implied(&mut self, p: &A, q: &A) -> Option<Line> {
        if let Some(line) = self.lines.find(&implication(p, q)) {
            return Some(line);
        }
        let key = (p.clone(), q.clone());
        let kind = self.kind();
        if self.refuted[kind].contains(&key) || !self.budget.spend() {
            return None;
        }
        let found = self.implied_by_shape(p, q).or_else(|| self.by_linked_fact(p, q));
        if found.is_none() && !self.budget.is_spent() {
            self.refuted[kind].insert(key);
        }
        found
    }

    fn implied_by_shape(&mut self, p: &A, q: &A) -> Option<Line> {
        if p == q {
            return self.identity(p);
        }
        if let Some(line) = self.fact(20, p, q, &[]) {
            return Some(line);
        }
        if let Some(line) = self.by_facts(p, q) {
            return Some(line);
        }
        let premises = self.premises_for(p, q)?;
        if let Some(line) = self.by_table(p, q, &premises) {
            return Some(line);
        }
        self.split_goal(p, q).or_else(|| self.split_cases(p, q)).or_else(|| self.drop_parts(p, q))
    }

    /// Implications that together cover every case of p.
    pub fn premises_for(&mut self, p: &A, q: &A) -> Option<Vec<Line>> {
        let mut all = Vec::new();
        for case in cases(p)? {
            for line in self.support(&case, q)? {
                if !all.contains(&line) {
                    all.push(line);
                }
            }
        }
        Some(all)
    }

    /// One line of rule 20, with as few of the premises as will do.
    pub fn by_table(&mut self, p: &A, q: &A, premises: &[Line]) -> Option<Line> {
        let mut kept = premises.to_vec();
        for line in premises {
            let fewer: Vec<Line> = kept.iter().copied().filter(|l| l != line).collect();
            if self.enough(p, q, &fewer) {
                kept = fewer;
            }
        }
        if kept.len() == 1 && self.left(kept[0]) == *p && self.right(kept[0]) == *q {
            return Some(kept[0]);
        }
        self.fact(20, p, q, &kept)
    }

    pub fn enough(&self, p: &A, q: &A, premises: &[Line]) -> bool {
        let sides: Vec<(&A, &A)> =
            premises.iter().map(|l| self.statement(*l).assertions()).collect();
        premises.len() <= MOST_PREMISES && implies_by_table((p, q), &sides) == Some(true)
    }

    /// Too many premises at once: prove the two halves of the goal apart.
    fn split_goal(&mut self, p: &A, q: &A) -> Option<Line> {
        let (a, b) = q.as_both()?;
        let premises = [self.implied(p, a)?, self.implied(p, b)?];
        self.fact(20, p, q, &premises)
    }

    /// Too many premises at once: prove the sides of a disjunction in p apart.
    fn split_cases(&mut self, p: &A, q: &A) -> Option<Line> {
        let parts = conjuncts(p);
        let wide = self.wide;
        let sides_of = |(at, c): (usize, &A)| Some((at, sides(c, wide)?));
        let (at, sides) = parts.iter().enumerate().find_map(sides_of)?;
        let mut premises = Vec::new();
        for side in sides {
            let mut own = parts.clone();
            own[at] = side;
            premises.push(self.implied(&fold_right(&own, both)?, q)?);
        }
        self.fact(20, p, q, &premises)
    }

    /// Too many leaves at once: leave out parts of p that are not needed.
    fn drop_parts(&mut self, p: &A, q: &A) -> Option<Line> {
        let small = self.least_part(p, q)?;
        if small == *p {
            return None;
        }
        let first = self.fact(20, p, &small, &[])?;
        let second = self.implied(&small, q)?;
        self.fact(20, p, q, &[first, second])
    }

    /// The conjuncts of p that q needs, joined again.
    pub fn least_part(&mut self, p: &A, q: &A) -> Option<A> {
        let mut parts = conjuncts(p);
        let mut at = 0;
        while at < parts.len() && parts.len() > 1 {
            let mut fewer = parts.clone();
            fewer.remove(at);
            let smaller = fold_right(&fewer, both)?;
            if self.premises_for(&smaller, q).is_some() {
                parts = fewer;
            } else {
                at += 1;
            }
        }
        fold_right(&parts, both)
    }
}

/// The sides of a disjunction, of assertions or, in a wide search, inside of a test.
fn sides(a: &A, wide: bool) -> Option<[A; 2]> {
    match &**a {
        Assertion::Either(p, q) => Some([p.clone(), q.clone()]),
        Assertion::Holds(e) if wide => match &*expand(e) {
            Assertion::Either(p, q) => Some([p.clone(), q.clone()]),
            _ => None,
        },
        _ => None,
    }
}

/// The parts of nested `both`, each once.
pub fn conjuncts(a: &A) -> Vec<A> {
    unique(match &**a {
        Assertion::Both(p, q) => [conjuncts(p), conjuncts(q)].concat(),
        _ => vec![a.clone()],
    })
}
