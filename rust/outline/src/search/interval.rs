//! Search for inclusions between intervals, rules 30 to 46.
//!
//! Goes by the shapes of both sides; every step makes one side smaller or turns
//! it to the right, and a depth keeps the search short.

use crate::search::prover::{inclusion, Line, Prover};
use crate::terms::*;
use reference::formula::{Interval, Test};

/// Deep enough for every interval of nesting 16 that occurs in practice.
pub const DEPTH: u8 = 24;

/// A test that holds at every view of the interval, as far as the rules can say so.
/// `one x` has none: no rule takes it into a test.
pub fn hull(i: &I) -> Option<T> {
    match &**i {
        Interval::All(e) => Some(e.clone()),
        Interval::Both(a, b) => match (hull(a), hull(b)) {
            (Some(p), Some(q)) => Some(and(&p, &q)),
            (p, q) => p.or(q),
        },
        Interval::Chop(a, b) | Interval::Either(a, b) => {
            let (p, q) = (hull(a)?, hull(b)?);
            Some(if p == q { p } else { or(&p, &q) })
        }
        Interval::One(_) => None,
    }
}

/// The parts of intervals joined by `&`.
pub fn both_parts(i: &I) -> Vec<I> {
    match &**i {
        Interval::Both(a, b) => [both_parts(a), both_parts(b)].concat(),
        _ => vec![i.clone()],
    }
}

impl Prover<'_> {
    /// A line for I in J, if the search finds one.
    pub fn include(&mut self, i: &I, j: &I) -> Option<Line> {
        self.include_within(i, j, DEPTH)
    }

    pub fn include_within(&mut self, i: &I, j: &I, depth: u8) -> Option<Line> {
        if let Some(line) = self.lines.find(&inclusion(i, j)) {
            return Some(line);
        }
        let key = (i.clone(), j.clone());
        let kind = usize::from(self.linking);
        let missed = self.missed[kind].get(&key).copied().filter(|d| *d >= depth);
        if let Some(tried) = missed {
            self.cut_short |= tried != Prover::WHATEVER_DEPTH;
            return None;
        }
        if depth == 0 || !self.budget.spend() {
            self.cut_short = true;
            return None;
        }
        let before = std::mem::replace(&mut self.cut_short, false);
        let found = self.include_by_shape(i, j, depth - 1).or_else(|| self.by_linked_part(i, j));
        if found.is_none() && !self.budget.is_spent() {
            let tried = if self.cut_short { depth } else { Prover::WHATEVER_DEPTH };
            self.missed[kind].insert(key, tried);
        }
        self.cut_short |= before;
        found
    }

    fn include_by_shape(&mut self, i: &I, j: &I, d: u8) -> Option<Line> {
        if i == j {
            return self.part(46, i, j, &[]);
        }
        match (&**i, &**j) {
            (Interval::All(_), Interval::All(_)) => return self.part(30, i, j, &[]),
            (_, Interval::Both(a, b)) => {
                let premises = [self.include_within(i, a, d)?, self.include_within(i, b, d)?];
                return self.part(41, i, j, &premises);
            }
            (Interval::Either(a, b), _) => {
                let premises = [self.include_within(a, j, d)?, self.include_within(b, j, d)?];
                return self.part(44, i, j, &premises);
            }
            _ => {}
        }
        self.by_side(i, j, d)
            .or_else(|| self.of_chop(i, j, d))
            .or_else(|| self.of_both(i, j, d))
            .or_else(|| self.by_halves(i, j, d))
            .or_else(|| self.by_empty_end(i, j, d))
            .or_else(|| self.by_sides_in_both(i, j, d))
    }

    /// Into `[E and F]` by `[E] & [F]`.
    fn by_halves(&mut self, i: &I, j: &I, d: u8) -> Option<Line> {
        let Test::And(a, b) = &**j.as_all()? else { return None };
        let pair = both(&all(a), &all(b));
        let first = self.include_within(i, &pair, d)?;
        let second = self.part(45, &pair, j, &[])?;
        self.link(first, second)
    }

    /// I in J by I in M and M in J; identities are left out.
    pub fn link(&mut self, first: Line, second: Line) -> Option<Line> {
        let (i, m) = self.statement(first).intervals();
        let (n, j) = self.statement(second).intervals();
        if i == m {
            return Some(second);
        }
        if n == j {
            return Some(first);
        }
        let (i, j) = (i.clone(), j.clone());
        self.part(31, &i, &j, &[first, second])
    }

    /// Into one side of `|`, or into one end of a chop.
    fn by_side(&mut self, i: &I, j: &I, d: u8) -> Option<Line> {
        let (sides, rules) = match &**j {
            Interval::Either(a, b) => ([a, b], [42, 43]),
            Interval::Chop(a, b) => ([a, b], [36, 35]),
            _ => return None,
        };
        for (side, rule) in sides.into_iter().zip(rules) {
            if let Some(first) = self.include_within(i, side, d) {
                let second = self.part(rule, side, j, &[])?;
                return self.link(first, second);
            }
        }
        None
    }

    fn of_chop(&mut self, i: &I, j: &I, d: u8) -> Option<Line> {
        let (a, b) = i.as_chop()?;
        let found = match &**j {
            Interval::All(_) => self.chop_in_test(i, a, b, j, d),
            Interval::Chop(c, e) => self.chop_in_chop(i, (a, b), j, (c, e), d),
            _ => None,
        };
        if found.is_some() {
            return found;
        }
        let (a1, a2) = a.as_chop()?;
        let turned = chop(a1, &chop(a2, b));
        let second = self.include_within(&turned, j, d)?;
        let first = self.part(33, i, &turned, &[])?;
        self.link(first, second)
    }

    /// Both parts in the test: `[E] ; [E]` is in `[E]`.
    fn chop_in_test(&mut self, i: &I, a: &I, b: &I, j: &I, d: u8) -> Option<Line> {
        let premises = [self.include_within(a, j, d)?, self.include_within(b, j, d)?];
        let twice = chop(j, j);
        let first = self.part(32, i, &twice, &premises)?;
        let second = self.part(37, &twice, j, &[])?;
        self.link(first, second)
    }

    fn chop_in_chop(
        &mut self,
        i: &I,
        (a, b): (&I, &I),
        j: &I,
        (c, e): (&I, &I),
        d: u8,
    ) -> Option<Line> {
        if let Some(first) = self.include_within(a, c, d) {
            if let Some(second) = self.include_within(b, e, d) {
                return self.part(32, i, j, &[first, second]);
            }
            if c.as_all().is_some() {
                if let Some(second) = self.include_within(b, j, d) {
                    return self.doubled(i, j, c, e, [first, second]);
                }
            }
        }
        if let Some((c1, c2)) = c.as_chop() {
            let turned = chop(c1, &chop(c2, e));
            if let Some(first) = self.include_within(i, &turned, d) {
                let second = self.part(34, &turned, j, &[])?;
                return self.link(first, second);
            }
        }
        if let Some(line) = self.chop_turned_left(i, (a, b), j, (c, e), d) {
            return Some(line);
        }
        if e.as_all().is_some() {
            let second = self.include_within(b, e, d)?;
            let first = self.include_within(a, j, d)?;
            return self.doubled_behind(i, j, c, e, [first, second]);
        }
        None
    }

    /// A;(B1;B2) as (A;B1);B2.
    fn chop_turned_left(
        &mut self,
        i: &I,
        (a, b): (&I, &I),
        j: &I,
        (c, e): (&I, &I),
        d: u8,
    ) -> Option<Line> {
        let (b1, b2) = b.as_chop()?;
        let front = chop(a, b1);
        let premises = [self.include_within(&front, c, d)?, self.include_within(b2, e, d)?];
        let turned = chop(&front, b2);
        let first = self.part(34, i, &turned, &[])?;
        let second = self.part(32, &turned, j, &premises)?;
        self.link(first, second)
    }

    /// A;B with A in C;D and B in D, D a test: (C;D);D is C;(D;D), and D;D is in D.
    fn doubled_behind(&mut self, i: &I, j: &I, c: &I, e: &I, premises: [Line; 2]) -> Option<Line> {
        let spread = chop(j, e);
        let first = self.part(32, i, &spread, &premises)?;
        let turned = chop(c, &chop(e, e));
        let turn = self.part(33, &spread, &turned, &[])?;
        let once = self.part(37, &chop(e, e), e, &[])?;
        let same = self.part(46, c, c, &[])?;
        let last = self.part(32, &turned, j, &[same, once])?;
        let half = self.link(first, turn)?;
        self.link(half, last)
    }

    /// A;B with A in C and B in C;D, C a test: C;(C;D) is (C;C);D, and C;C is in C.
    fn doubled(&mut self, i: &I, j: &I, c: &I, e: &I, premises: [Line; 2]) -> Option<Line> {
        let spread = chop(c, j);
        let first = self.part(32, i, &spread, &premises)?;
        let turned = chop(&chop(c, c), e);
        let turn = self.part(34, &spread, &turned, &[])?;
        let once = self.part(37, &chop(c, c), c, &[])?;
        let same = self.part(46, e, e, &[])?;
        let last = self.part(32, &turned, j, &[once, same])?;
        let half = self.link(first, turn)?;
        self.link(half, last)
    }

    fn of_both(&mut self, i: &I, j: &I, d: u8) -> Option<Line> {
        let (a, b) = i.as_both()?;
        for (side, rule) in [(a, 39), (b, 40)] {
            if let Some(second) = self.include_within(side, j, d) {
                let first = self.part(rule, i, side, &[])?;
                return self.link(first, second);
            }
        }
        if j.as_all().is_some() {
            if let Some(line) = self.both_in_test(i, a, b, j, d) {
                return Some(line);
            }
        }
        self.spread(i, j, d)
    }

    /// Both tests together imply the wanted one.
    fn both_in_test(&mut self, i: &I, a: &I, b: &I, j: &I, d: u8) -> Option<Line> {
        let (p, q) = (hull(a)?, hull(b)?);
        let joint = all(&and(&p, &q));
        let last = self.part(30, &joint, j, &[])?;
        let pair = both(&all(&p), &all(&q));
        let first = self.include_within(i, &pair, d)?;
        let second = self.part(45, &pair, &joint, &[])?;
        let half = self.link(first, second)?;
        self.link(half, last)
    }

    /// Rule 38: what holds of the whole list holds of both ends of a chop in it.
    fn spread(&mut self, i: &I, j: &I, d: u8) -> Option<Line> {
        let parts = both_parts(i);
        for (n, part) in parts.iter().enumerate() {
            let Some((a, b)) = part.as_chop() else { continue };
            let others = [&parts[..n], &parts[n + 1..]].concat();
            let whole = fold_right(&others, both)?;
            let ordered = both(&whole, part);
            let spread = chop(&both(&whole, a), &both(&whole, b));
            if let Some(last) = self.include_within(&spread, j, d) {
                let first = self.include_within(i, &ordered, d)?;
                let second = self.part(38, &ordered, &spread, &[])?;
                let half = self.link(first, second)?;
                return self.link(half, last);
            }
        }
        None
    }
}

#[cfg(test)]
mod tests {
    use super::*;
    use reference::formula::parse::Counts;
    use reference::image::{Header, Program};

    fn is(n: u8) -> I {
        all(&equal(&word(1), &constant(n)))
    }

    fn found(i: &I, j: &I) -> bool {
        let counts = Counts { threads: 0, words: 2, registers: 0, range: 8 };
        let header = Header::cleared(counts, vec![0, 0], Vec::new());
        let program = Program { header, threads: Vec::new(), outline: Vec::new() };
        Prover::new(&program, Default::default()).include(i, j).is_some()
    }

    #[test]
    fn chops_are_matched_whatever_their_nesting() {
        let left = chop(&chop(&is(0), &is(1)), &is(2));
        let right = chop(&is(0), &chop(&is(1), &is(2)));
        assert!(found(&left, &right) && found(&right, &left));
        assert!(found(&chop(&is(0), &is(2)), &right));
        assert!(!found(&chop(&is(2), &is(0)), &right));
    }

    #[test]
    fn a_test_takes_in_many_parts() {
        let low = all(&less(&word(1), &constant(2)));
        assert!(found(&chop(&is(0), &chop(&is(1), &is(0))), &low));
        assert!(found(&chop(&is(0), &chop(&is(1), &is(2))), &chop(&low, &is(2))));
        assert!(!found(&chop(&is(0), &is(2)), &low));
    }

    #[test]
    fn a_test_at_the_end_takes_in_what_is_appended() {
        let risen = chop(&is(0), &is(1));
        assert!(found(&chop(&risen, &is(1)), &risen));
        assert!(!found(&chop(&risen, &is(0)), &risen));
    }

    #[test]
    fn what_holds_throughout_holds_in_each_part() {
        let y = all(&equal(&word(2), &constant(1)));
        let both_parts = chop(&both(&y, &is(0)), &both(&y, &is(1)));
        assert!(found(&both(&y, &chop(&is(0), &is(1))), &both_parts));
        assert!(found(&both(&chop(&is(0), &is(1)), &y), &both_parts));
    }

    #[test]
    fn one_write_is_not_two() {
        let one: I = Interval::one_equal(1, constant(1)).into();
        assert!(found(&one, &is(1)));
        assert!(!found(&chop(&one, &one), &one));
        assert!(found(&chop(&one, &one), &is(1)));
    }
}
