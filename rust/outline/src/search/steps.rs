//! Steps that the writer named: first as they stand, then with their gaps searched.

use crate::search::implication::conjuncts;
use crate::search::prover::{At, Line, Prover};
use crate::terms::*;
use reference::checker::obligations::duties;
use reference::image::Statement;

/// So many named steps of one instruction are joined at most.
const MOST_JOINED: usize = 4;

impl Prover<'_> {
    /// The steps that were named for the instruction here.
    pub fn steps_at(&self, at: At) -> Vec<Line> {
        let here = |line: &Line| self.statement(*line).place() == (at.thread, at.point);
        self.steps.iter().copied().filter(here).collect()
    }

    /// A named step by the obligations of its instruction that it says too. They are sought in any case, and several
    /// steps about one thread's move rest on the same one.
    pub fn by_obligations(&mut self, at: At, p: &A, q: &A) -> Option<Line> {
        let named = self.steps_at(at);
        if let Some(line) = self.by_fitting_steps(at, p, q, &named) {
            return Some(line);
        }
        let mut found = Vec::new();
        for (left, right) in self.obligations_at(at) {
            let whole = (&left, &right) == (p, q);
            if !whole && has_parts_of(q, &right) && self.gives(p, &left) {
                found.extend(self.obligation(at, &left, &right));
            }
        }
        self.by_fitting_steps(at, p, q, &[named, found].concat())
    }

    /// An obligation before its turn; one that is not found waits for it.
    fn obligation(&mut self, at: At, left: &A, right: &A) -> Option<Line> {
        let wanted = at.triple(left, right);
        if self.postponed.contains(&wanted) {
            return None;
        }
        let found = self.triple(at, left, right);
        if found.is_none() {
            self.postponed.insert(wanted);
        }
        found
    }

    /// Both sides of what the obligations ask of the instruction here, of a pair's first half.
    fn obligations_at(&self, at: At) -> Vec<(A, A)> {
        let all = duties(&self.program.threads).into_iter().map(|duty| duty.wanted(self.program));
        let here = all.filter(|wanted| wanted.place() == (at.thread, at.point));
        let sides = |wanted: Statement| {
            let (left, right) = wanted.assertions();
            (left.clone(), self.goal_of_half(at, right))
        };
        here.map(sides).collect()
    }

    /// {P} c {Q} by steps that fit as they stand, one of them or several joined: nothing is searched.
    pub fn by_fitting_steps(&mut self, at: At, p: &A, q: &A, steps: &[Line]) -> Option<Line> {
        let mut given: Vec<Line> = unique(steps.iter().copied());
        given.retain(|line| shares_part(&self.right(*line), q) && self.gives(p, &self.left(*line)));
        let alone = given.iter().find(|line| self.gives(&self.right(**line), q));
        if let Some(&line) = alone {
            return self.by_step(at, p, q, line);
        }
        let steps = self.together(q, given, Self::gives)?;
        (0..1 << steps.len()).find_map(|opened| self.joined_so(at, p, q, &steps, opened))
    }

    /// Whether P gives Q as it stands, by its truth table alone.
    fn gives(&mut self, p: &A, q: &A) -> bool {
        p == q || self.budget.spend() && self.enough(p, q, &[])
    }

    /// Steps joined, those of the set `opened` by what their rules ask for: all left sides together may be too long
    /// for a record.
    fn joined_so(&mut self, at: At, p: &A, q: &A, steps: &[Line], opened: u32) -> Option<Line> {
        let (mut lines, mut firsts) = (Vec::new(), Vec::new());
        for (n, line) in steps.iter().enumerate() {
            let (first, rest) = match opened >> n & 1 {
                0 => (None, *line),
                _ => self.opened(at, *line)?,
            };
            firsts.extend(first);
            lines.push(rest);
        }
        let joined = self.joined_steps(at, &lines)?;
        let (left, right) = (self.left(joined), self.right(joined));
        let first = if left == *p { None } else { Some(self.fact(20, p, &left, &firsts)?) };
        let last = if right == *q { None } else { Some(self.fact(20, &right, q, &[])?) };
        self.consequence(at, first, joined, last)
    }

    /// A line of rule 16 as its first implication and the triple behind it.
    fn opened(&mut self, at: At, line: Line) -> Option<(Option<Line>, Line)> {
        let entry = &self.lines.entries[line];
        let (16, &[first, triple, last]) = (entry.rule, &entry.premises[..]) else { return None };
        let last = (self.left(last) != self.right(last)).then_some(last);
        Some((Some(first), self.consequence(at, None, triple, last)?))
    }

    /// {P} c {Q} by a step that was named, or by several that P gives, with all gaps searched.
    pub fn by_steps(&mut self, at: At, p: &A, q: &A, steps: &[Line]) -> Option<Line> {
        let mut given = Vec::new();
        for &line in steps {
            if self.implied(p, &self.left(line)).is_some() {
                if let Some(found) = self.by_step(at, p, q, line) {
                    return Some(found);
                }
                given.push(line);
            }
        }
        let steps = self.together(q, given, |all, p, q| all.implied(p, q).is_some())?;
        let whole = self.joined_steps(at, &steps)?;
        self.by_step(at, p, q, whole)
    }

    /// Rule 16 about a step, with both gaps searched.
    fn by_step(&mut self, at: At, p: &A, q: &A, line: Line) -> Option<Line> {
        let (left, right) = (self.left(line), self.right(line));
        let last = if right == *q { None } else { Some(self.implied(&right, q)?) };
        let first = if left == *p { None } else { Some(self.implied(p, &left)?) };
        self.consequence(at, first, line, last)
    }

    /// Several of the steps that together give Q, in its order and without those that are not needed.
    fn together(
        &mut self,
        q: &A,
        mut steps: Vec<Line>,
        gives: impl Fn(&mut Self, &A, &A) -> bool,
    ) -> Option<Vec<Line>> {
        steps.sort_by_key(|line| first_shared(&self.right(*line), q));
        steps.truncate(MOST_JOINED);
        if steps.len() < 2 || !gives(self, &self.rights(&steps)?, q) {
            return None;
        }
        for line in steps.clone() {
            let fewer: Vec<Line> = steps.iter().copied().filter(|l| *l != line).collect();
            if self.rights(&fewer).is_some_and(|all| gives(self, &all, q)) {
                steps = fewer;
            }
        }
        Some(steps)
    }

    fn rights(&self, lines: &[Line]) -> Option<A> {
        let rights: Vec<A> = lines.iter().map(|line| self.right(*line)).collect();
        fold_right(&rights, both)
    }

    /// Rule 14, again and again from the right.
    fn joined_steps(&mut self, at: At, lines: &[Line]) -> Option<Line> {
        let (last, rest) = lines.split_last()?;
        rest.iter().rev().try_fold(*last, |all, line| {
            let left = both(&self.left(*line), &self.left(all));
            let right = both(&self.right(*line), &self.right(all));
            self.step(at, 14, &left, &right, &[*line, all])
        })
    }
}

/// The place in b of the first conjunct that a has too, behind all others if there is none.
fn first_shared(a: &A, b: &A) -> usize {
    let parts = conjuncts(a);
    conjuncts(b).iter().position(|part| parts.contains(part)).unwrap_or(usize::MAX)
}

/// Does a have all conjuncts of b?
fn has_parts_of(a: &A, b: &A) -> bool {
    let parts = conjuncts(a);
    conjuncts(b).iter().all(|part| parts.contains(part))
}

/// Do two assertions have a conjunct in common?
fn shares_part(a: &A, b: &A) -> bool {
    first_shared(a, b) != usize::MAX
}
