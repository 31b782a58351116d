//! How a case gives `u sees J`: from views, from tests, from the start, or from several together.

use crate::search::cases::Case;
use crate::search::prover::{Line, Prover};
use crate::terms::*;
use reference::formula::atoms::Atoms;
use reference::formula::{Assertion, Interval};

/// Something that gives `u sees I`: itself, or an assertion with the line that says so.
#[derive(Debug, Clone)]
pub struct Given {
    pub from: A,
    pub interval: I,
    pub line: Option<Line>,
}

impl Prover<'_> {
    /// A view of u as something given.
    pub fn seen(&self, u: u8, i: &I) -> Given {
        Given { from: sees(u, i), interval: i.clone(), line: None }
    }

    /// An implication from leaves of the case to `u sees J`.
    pub fn support_sees(&mut self, case: &Case, u: u8, j: &I) -> Option<Line> {
        if case.start {
            return self.start_gives_view(u, j);
        }
        let seen = case.seen_by(u);
        for i in &seen {
            if let Some(line) = self.view_gives_view(u, i, j) {
                return Some(line);
            }
        }
        if let Some(line) = self.tests_give_view(&truth(), u, j) {
            return Some(line);
        }
        let mut given: Vec<Given> = seen.iter().map(|i| self.seen(u, i)).collect();
        if let Some(near) = case.tests_about(j.as_ref()) {
            if let Some(line) = self.tests_give_view(&near, u, j) {
                return Some(line);
            }
            let line = self.tests_give_view(&near, u, &all(&near));
            given.push(Given { from: holds(&near), interval: all(&near), line });
        }
        self.joint_view(u, &given, j).or_else(|| self.view_by_its_tests(case, u, j))
    }

    /// One view with the tests about its own registers, which J need not name.
    fn view_by_its_tests(&mut self, case: &Case, u: u8, j: &I) -> Option<Line> {
        if !self.wide {
            return None;
        }
        for i in case.seen_by(u) {
            let Some(near) = case.tests_about(both(&i, j).as_ref()) else { continue };
            let line = self.tests_give_view(&near, u, &all(&near));
            let known = Given { from: holds(&near), interval: all(&near), line };
            if let Some(line) = self.gathered_view(u, &[self.seen(u, &i), known], j) {
                return Some(line);
            }
        }
        None
    }

    /// `u sees I` to `u sees J` by an inclusion.
    pub fn view_gives_view(&mut self, u: u8, i: &I, j: &I) -> Option<Line> {
        let inclusion = self.include(i, j)?;
        self.fact(22, &sees(u, i), &sees(u, j), &[inclusion])
    }

    /// `holds e` to `u sees J`: by rows if J is a test, else through `[e]`.
    fn tests_give_view(&mut self, e: &T, u: u8, j: &I) -> Option<Line> {
        if let Some(line) = self.fact(24, &holds(e), &sees(u, j), &[]) {
            return Some(line);
        }
        let second = self.view_gives_view(u, &all(e), j)?;
        let first = self.fact(24, &holds(e), &sees(u, &all(e)), &[])?;
        self.chain(first, second)
    }

    /// Pairs first, then all together, so that premises stay small.
    fn joint_view(&mut self, u: u8, given: &[Given], j: &I) -> Option<Line> {
        for (n, a) in given.iter().enumerate() {
            for b in &given[n + 1..] {
                if let Some(line) = self.gathered_view(u, &[a.clone(), b.clone()], j) {
                    return Some(line);
                }
            }
        }
        if given.len() > 2 {
            return self.gathered_view(u, given, j);
        }
        None
    }

    fn gathered_view(&mut self, u: u8, given: &[Given], j: &I) -> Option<Line> {
        let intervals: Vec<I> = given.iter().map(|g| g.interval.clone()).collect();
        let joint = fold_right(&intervals, both)?;
        let last = self.view_gives_view(u, &joint, j)?;
        let (first, _) = self.gather(u, given)?;
        self.chain(first, last)
    }

    /// All that is given, as one view: rule 25, again and again from the right.
    pub fn gather(&mut self, u: u8, given: &[Given]) -> Option<(Line, I)> {
        let (head, rest) = given.split_first()?;
        if rest.is_empty() {
            let line = match head.line {
                Some(line) => line,
                None => self.identity(&head.from)?,
            };
            return Some((line, head.interval.clone()));
        }
        let (tail, tail_interval) = self.gather(u, rest)?;
        let whole = both(&head.interval, &tail_interval);
        let pair = both(&sees(u, &head.interval), &sees(u, &tail_interval));
        let join = self.fact(25, &pair, &sees(u, &whole), &[])?;
        let from = if head.from == self.left(tail) {
            head.from.clone()
        } else {
            both(&head.from, &self.left(tail))
        };
        let mut premises = vec![join];
        premises.extend(head.line);
        if self.left(tail) != self.right(tail) {
            premises.push(tail);
        }
        if premises.len() == 1 && from == pair {
            return Some((join, whole));
        }
        Some((self.fact(20, &from, &sees(u, &whole), &premises)?, whole))
    }

    /// The registers that start at 0, of those that a formula names.
    fn cleared(&self, tree: &impl Atoms) -> Vec<u8> {
        let header = &self.program.header;
        registers_of(tree).into_iter().filter(|register| header.is_cleared(*register)).collect()
    }

    /// Rules 26 and 27: the start gives each word's value and zero registers.
    fn start_gives_view(&mut self, u: u8, j: &I) -> Option<Line> {
        let start: A = Assertion::Start.into();
        let mut given = Vec::new();
        for x in words_of(j.as_ref()) {
            let value = self.program.header.start[usize::from(x) - 1];
            let interval: I = Interval::one_equal(x, constant(value)).into();
            let line = self.fact(26, &start, &sees(u, &interval), &[])?;
            given.push(Given { from: start.clone(), interval, line: Some(line) });
        }
        for r in self.cleared(j.as_ref()) {
            let zero = equal(&register(r), &constant(0));
            let first = self.fact(27, &start, &holds(&zero), &[])?;
            let second = self.tests_give_view(&zero, u, &all(&zero))?;
            let line = self.chain(first, second);
            given.push(Given { from: start.clone(), interval: all(&zero), line });
        }
        if given.is_empty() {
            return self.tests_give_view(&truth(), u, j);
        }
        self.gathered_view(u, &given, j)
    }

    /// Rule 27 for each register of the test that starts at 0, then rows.
    pub fn start_gives_test(&mut self, e: &T) -> Option<Line> {
        let start: A = Assertion::Start.into();
        let registers = self.cleared(e.as_ref()).into_iter();
        let zeros: Vec<T> = registers.map(|r| equal(&register(r), &constant(0))).collect();
        let mut premises = Vec::new();
        for zero in &zeros {
            premises.push(self.fact(27, &start, &holds(zero), &[])?);
        }
        let known = fold_right(&zeros, and)?;
        if zeros.len() > 1 || known != *e {
            premises.push(self.fact(21, &holds(&known), &holds(e), &[])?);
        }
        if premises.len() == 1 {
            return premises.pop();
        }
        self.fact(20, &start, &holds(e), &premises)
    }
}
