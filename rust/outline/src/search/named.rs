//! Steps for which the writer names the rule: its premises are read off the shapes and searched.

use super::prover::{At, Line, Prover};
use crate::terms::*;
use crate::text::source::{Hint, Middle};
use reference::checker::rules::OF_PAIR;
use reference::formula::{Assertion, Interval};
use reference::image::Statement;

impl Prover<'_> {
    /// The line that a hint asks for, by its rule if it names one.
    pub fn hinted(&mut self, hint: &Hint) -> Option<Line> {
        match &hint.statement {
            Statement::Triple { thread, point, left, right } => {
                let at = At { thread: *thread, point: *point };
                if let Some(Middle::Triple(p, q)) = &hint.middle {
                    return self.step_through(at, (left, right), (p, q));
                }
                match hint.rule {
                    None => self.named_step(at, left, right),
                    Some(OF_PAIR) => self.by_half(at, left, right),
                    Some(rule) => self.step_by(at, rule, left, right),
                }
            }
            Statement::Implication { left, right } => match hint.rule {
                Some(rule) => self.fact_by(rule, left, right),
                None => self.implication(left, right),
            },
            Statement::Inclusion { left, right } => match hint.rule {
                _ if hint.middle.is_some() => self.part_through(left, right, &hint.middle),
                Some(rule) => self.part_by(rule, left, right),
                None => self.include(left, right),
            },
        }
    }

    /// By the obligations of its instruction where they make it up, else by search.
    fn named_step(&mut self, at: At, l: &A, r: &A) -> Option<Line> {
        let half = self.goal_of_half(at, r);
        self.by_obligations(at, l, &half);
        self.whole(at, l, r)
    }

    /// Rule 16 with its triple named.
    fn step_through(&mut self, at: At, (l, r): (&A, &A), (p, q): (&A, &A)) -> Option<Line> {
        let first = self.implication(l, p)?;
        let triple = self.triple(at, p, q)?;
        let last = self.implication(q, r)?;
        self.step(at, 16, l, r, &[first, triple, last])
    }

    /// Rule 31 with its middle named.
    fn part_through(&mut self, l: &I, r: &I, middle: &Option<Middle>) -> Option<Line> {
        let Some(Middle::Interval(m)) = middle else { return None };
        let premises = [self.include(l, m)?, self.include(m, r)?];
        self.part(31, l, r, &premises)
    }

    fn step_by(&mut self, at: At, rule: u8, l: &A, r: &A) -> Option<Line> {
        use Assertion::*;
        let wanted = match (rule, &**l, &**r) {
            (4, Sees(t, i), Either(_, q)) => vec![(sees(*t, i.as_chop()?.1), q.clone())],
            (55, Sees(u, i), Sees(_, k)) => {
                let behind = k.as_either()?.1;
                vec![(sees(*u, i.as_chop()?.1), sees(*u, behind.as_chop()?.1))]
            }
            (5 | 10, Sees(t, i), _) => vec![(sees(*t, i.as_chop()?.1), r.clone())],
            (14, Both(a, b), Both(c, d)) => vec![(a.clone(), c.clone()), (b.clone(), d.clone())],
            (15, Either(a, b), Either(c, d)) => {
                vec![(a.clone(), c.clone()), (b.clone(), d.clone())]
            }
            _ => Vec::new(),
        };
        let mut premises = Vec::new();
        for (a, b) in wanted {
            premises.push(self.triple(at, &a, &b)?);
        }
        self.step(at, rule, l, r, &premises)
    }

    fn fact_by(&mut self, rule: u8, l: &A, r: &A) -> Option<Line> {
        let premises = match (rule, &**l, &**r) {
            (20, ..) => self.premises_for(l, r)?,
            (22, Assertion::Sees(_, i), Assertion::Sees(_, j)) => vec![self.include(i, j)?],
            _ => Vec::new(),
        };
        self.fact(rule, l, r, &premises)
    }

    fn part_by(&mut self, rule: u8, l: &I, r: &I) -> Option<Line> {
        use Interval::*;
        let premises = match (rule, &**l, &**r) {
            (32, Chop(a, b), Chop(c, d)) => vec![self.include(a, c)?, self.include(b, d)?],
            (41, _, Both(c, d)) => vec![self.include(l, c)?, self.include(l, d)?],
            (44, Either(a, b), _) => vec![self.include(a, r)?, self.include(b, r)?],
            _ => Vec::new(),
        };
        self.part(rule, l, r, &premises)
    }
}
