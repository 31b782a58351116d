//! Does a case give a wanted assertion, and by which implications?

use crate::search::cases::Case;
use crate::search::interval::{both_parts, hull};
use crate::search::prover::{Line, Prover};
use crate::terms::*;
use reference::checker::rules::table::implies_by_table;
use reference::formula::{Assertion, Test};

/// A test with `not` pushed inwards and `and`, `or` turned into assertions, so that each leaf is alone.
pub fn expand(e: &T) -> A {
    match &**e {
        Test::And(a, b) => both(&expand(a), &expand(b)),
        Test::Or(a, b) => either(&expand(a), &expand(b)),
        Test::Not(n) => match &**n {
            Test::And(a, b) => either(&expand(&not(a)), &expand(&not(b))),
            Test::Or(a, b) => both(&expand(&not(a)), &expand(&not(b))),
            Test::Not(a) => expand(a),
            _ => holds(e),
        },
        _ => holds(e),
    }
}

impl Prover<'_> {
    /// The implications by which the case gives the goal; none are needed if it is plain.
    pub fn support(&mut self, case: &Case, goal: &A) -> Option<Vec<Line>> {
        self.with_or_without_facts(case, |all, case| {
            let found = all.support_parts(case, goal);
            found.or_else(|| Some(vec![all.contradiction(case)?]))
        })
    }

    /// Does the case give the goal without being impossible?
    pub fn serves(&mut self, case: &Case, goal: &A) -> bool {
        self.with_or_without_facts(case, |all, case| all.support_parts(case, goal)).is_some()
    }

    /// Is the case impossible, as far as the rules can say so?
    pub fn impossible(&mut self, case: &Case) -> bool {
        self.with_or_without_facts(case, |all, case| Some(vec![all.contradiction(case)?])).is_some()
    }

    /// Facts are used only where nothing is found without them: each is a premise more.
    fn with_or_without_facts(
        &mut self,
        case: &Case,
        search: impl Fn(&mut Self, &Case) -> Option<Vec<Line>>,
    ) -> Option<Vec<Line>> {
        if let Some(found) = search(self, case) {
            return Some(found);
        }
        let (more, named) = self.with_facts(case);
        if named.is_empty() {
            return self.in_divided_cases(case, &search);
        }
        let mut found = search(self, &more)?;
        found.extend(named);
        Some(found)
    }

    /// The case with what the writer's facts add to it.
    fn with_facts(&mut self, case: &Case) -> (Case, Vec<Line>) {
        let (mut more, mut used) = (case.clone(), Vec::new());
        for line in self.facts.clone() {
            if more.satisfies(&self.left(line)) {
                add_leaves(&self.right(line), &mut more);
                used.push(line);
            }
        }
        (more, used)
    }

    fn support_parts(&mut self, case: &Case, goal: &A) -> Option<Vec<Line>> {
        if case.satisfies(goal) {
            return Some(Vec::new());
        }
        match &**goal {
            Assertion::Both(a, b) => {
                let mut found = self.support_parts(case, a)?;
                found.extend(self.support_parts(case, b)?);
                Some(found)
            }
            Assertion::Either(a, b) => {
                let (x, y) = (self.support_parts(case, a), self.support_parts(case, b));
                match (x, y) {
                    (Some(x), Some(y)) => Some(if y.len() < x.len() { y } else { x }),
                    (x, y) => x.or(y),
                }
            }
            Assertion::Sees(u, j) => Some(vec![self.support_sees(case, *u, j)?]),
            Assertion::Holds(e) => self.support_test(case, e),
            Assertion::Start => None,
        }
    }

    fn support_test(&mut self, case: &Case, e: &T) -> Option<Vec<Line>> {
        if let Some(known) = fold_right(&case.tests, and) {
            if implies_by_table((&holds(&known), &holds(e)), &[]) == Some(true) {
                return Some(Vec::new());
            }
        }
        let goal = holds(e);
        if let Some(near) = case.tests_about(e.as_ref()) {
            if let Some(line) = self.fact(21, &holds(&near), &goal, &[]) {
                return Some(vec![line]);
            }
        }
        if let Some(line) = self.fact(21, &holds(&truth()), &goal, &[]) {
            return Some(vec![line]);
        }
        let line = self.test_from_views(case, e).or_else(|| self.test_from_last_views(case, e));
        if let Some(line) = line {
            return Some(vec![line]);
        }
        let apart = expand(e);
        if apart != goal {
            return self.support_parts(case, &apart);
        }
        None
    }

    /// Rule 23: what a thread sees tells of registers, alone or with what is known of them.
    fn test_from_views(&mut self, case: &Case, e: &T) -> Option<Line> {
        if case.start {
            return self.start_gives_test(e);
        }
        let near = case.tests_about(e.as_ref());
        for u in self.program.thread_numbers() {
            for i in case.seen_by(u) {
                for h in hulls(&i) {
                    let goals = [Some(e.clone()), near.as_ref().map(|n| or(&not(n), e))];
                    if let Some(goal) = goals.into_iter().flatten().find(|g| self.by_rows(&h, g)) {
                        return self.view_gives_test(u, &i, &h, &goal);
                    }
                }
            }
        }
        None
    }

    /// `u sees I` to `holds e`, by the test h that holds throughout I.
    pub fn view_gives_test(&mut self, u: u8, i: &I, h: &T, e: &T) -> Option<Line> {
        let (seen, plain) = (sees(u, i), sees(u, &all(h)));
        let inclusion = self.include(i, &all(h))?;
        let first = self.fact(22, &seen, &plain, &[inclusion])?;
        let second = self.fact(23, &plain, &holds(e), &[])?;
        self.chain(first, second)
    }

    /// Tests or views that cannot be true together: an implication to `false`.
    pub fn contradiction(&mut self, case: &Case) -> Option<Line> {
        let nothing = holds(&falsehood());
        if let Some(known) = fold_right(&case.tests, and) {
            if let Some(line) = self.fact(21, &holds(&known), &nothing, &[]) {
                return Some(line);
            }
        }
        for u in self.program.thread_numbers() {
            let seen = case.seen_by(u);
            for (n, i) in seen.iter().enumerate() {
                if let Some(line) = self.views_clash(case, u, i, &seen[n + 1..]) {
                    return Some(line);
                }
            }
        }
        let told = if self.wide { self.registers_clash(case) } else { None };
        told.or_else(|| self.test_from_last_views(case, &falsehood()))
    }

    /// Views of two threads that tell different things of the registers.
    fn registers_clash(&mut self, case: &Case) -> Option<Line> {
        let told = self.told_of_registers(case);
        for (n, (u, i, h)) in told.iter().enumerate() {
            for (v, k, g) in told[n + 1..].iter().filter(|(v, ..)| v != u) {
                if self.by_rows(&and(h, g), &falsehood()) {
                    let given =
                        [self.view_gives_test(*u, i, h, h)?, self.view_gives_test(*v, k, g, g)?];
                    return self.told_apart(&sees(*u, i), &sees(*v, k), given, &and(h, g));
                }
            }
        }
        None
    }

    /// Each thread's views with the tests of registers alone that they give.
    fn told_of_registers(&self, case: &Case) -> Vec<(u8, I, T)> {
        let threads = self.program.thread_numbers();
        let views = threads.flat_map(|u| case.seen_by(u).into_iter().map(move |i| (u, i)));
        let tests = views.flat_map(|(u, i)| hulls(&i).into_iter().map(move |h| (u, i.clone(), h)));
        tests.filter(|(.., h)| registers_only(h.as_ref())).collect()
    }

    /// Two assertions that give tests of which not both are true.
    fn told_apart(&mut self, p: &A, q: &A, given: [Line; 2], tests: &T) -> Option<Line> {
        let nothing = holds(&falsehood());
        let clash = self.fact(21, &holds(tests), &nothing, &[])?;
        self.fact(20, &both(p, q), &nothing, &[given[0], given[1], clash])
    }

    /// One view against the tests, then against each of the others.
    fn views_clash(&mut self, case: &Case, u: u8, i: &I, others: &[I]) -> Option<Line> {
        for h in hulls(i) {
            if self.by_rows(&h, &falsehood()) {
                return self.view_gives_test(u, i, &h, &falsehood());
            }
            if let Some(near) = case.tests_about(h.as_ref()) {
                if self.by_rows(&h, &not(&near)) {
                    return self.view_gives_test(u, i, &h, &not(&near));
                }
            }
            for k in others {
                for g in hulls(k) {
                    if self.by_rows(&and(&h, &g), &falsehood()) {
                        return self.pair_clashes(u, (i, &h), (k, &g));
                    }
                }
            }
        }
        None
    }

    /// Two views whose tests h and g exclude each other.
    fn pair_clashes(&mut self, u: u8, (i, h): (&I, &T), (k, g): (&I, &T)) -> Option<Line> {
        let (first, pair) = self.gather(u, &[self.seen(u, i), self.seen(u, k)])?;
        let second = self.view_gives_test(u, &pair, &and(h, g), &falsehood())?;
        self.chain(first, second)
    }
}

/// Tests that hold throughout an interval: of each part joined by `&`, of the whole, and at last
/// the parts of those joined by `and`, since fewer names make fewer rows.
fn hulls(i: &I) -> Vec<T> {
    let mut tests: Vec<T> = both_parts(i).iter().filter_map(hull).collect();
    tests.extend(hull(i));
    let parts: Vec<T> = tests.iter().flat_map(and_parts).collect();
    tests.extend(parts);
    unique(tests)
}

/// The parts of nested `and`.
fn and_parts(e: &T) -> Vec<T> {
    match &**e {
        Test::And(a, b) => [and_parts(a), and_parts(b)].concat(),
        _ => vec![e.clone()],
    }
}

/// Adds the leaves of a conjunction to a case.
fn add_leaves(a: &A, case: &mut Case) {
    match &**a {
        Assertion::Both(p, q) => {
            add_leaves(p, case);
            add_leaves(q, case);
        }
        Assertion::Sees(..) if !case.sees.contains(a) => case.sees.push(a.clone()),
        Assertion::Holds(e) if !case.tests.contains(e) => case.tests.push(e.clone()),
        _ => {}
    }
}
