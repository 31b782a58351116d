//! Text to formulas. Right-nested throughout, as `print` writes them.

use crate::terms::*;
use crate::text::cursor::{Parsed, MOST_DEPTH};
use crate::text::lex::{Mistake, Token, KEYWORDS};
use crate::text::scope::{describe, Meaning};
use reference::formula::nesting::NESTING;
use reference::formula::{Assertion, Formula, Interval, Sort, Test};

pub use super::cursor::Cursor;

impl Cursor<'_> {
    /// A `let` name of the wanted sort, taken if it is next.
    fn short<S>(&mut self, of_sort: fn(&Formula) -> Option<S>) -> Option<S> {
        let Some(Meaning::Short(formula)) = self.meaning() else { return None };
        let found = of_sort(formula)?;
        self.at += 1;
        Some(found)
    }

    /// Nothing fits: say what stands here instead.
    fn unfit<T>(&self, want: &str) -> Result<T, Mistake> {
        if let Token::Name(n) = self.peek() {
            if !KEYWORDS.contains(&n.as_str()) {
                let (is, meant) = (describe(self.scope.get(n)), self.meant());
                return self.fail(format!("{want} is wanted, but `{n}` {is}{meant}"));
            }
        }
        self.wanted(want)
    }

    /// `e => P` is short for `not e or P`.
    pub fn assertion(&mut self) -> Parsed<A> {
        self.inside(Self::implied)
    }

    fn implied(&mut self) -> Parsed<A> {
        let line = self.line();
        let left = self.either()?;
        if !self.take("=>") {
            return Ok(left);
        }
        let Some(e) = as_test(&left) else {
            let text = "only a test of registers may stand before `=>`".into();
            return Err(Mistake { line, text });
        };
        Ok(either(&holds(&not(&e)), &self.assertion()?))
    }

    fn either(&mut self) -> Parsed<A> {
        let a = self.both()?;
        Ok(if self.take("or") { either(&a, &self.inside(Self::either)?) } else { a })
    }

    fn both(&mut self) -> Parsed<A> {
        let a = self.assertion_unit()?;
        Ok(if self.take("and") { both(&a, &self.inside(Self::both)?) } else { a })
    }

    fn assertion_unit(&mut self) -> Parsed<A> {
        if let Some(a) = self.short(Formula::assertion) {
            return Ok(a);
        }
        if let Some(Meaning::Thread(t)) = self.meaning() {
            let t = *t;
            self.at += 1;
            self.expect("sees")?;
            return Ok(sees(t, &self.interval()?));
        }
        if self.take("start") {
            return Ok(Assertion::Start.into());
        }
        if self.take("(") {
            let a = self.assertion()?;
            self.expect(")")?;
            return Ok(a);
        }
        let line = self.line();
        let e = if self.take("holds") || self.at_test() {
            self.test_unit()?
        } else {
            return self.unfit("an assertion");
        };
        if registers_only(e.as_ref()) {
            return Ok(holds(&e));
        }
        let text = "a test outside [ ] is about registers only; words need `THREAD sees [..]`";
        Err(Mistake { line, text: text.into() })
    }

    /// May a bare test start here, without `holds`?
    fn at_test(&self) -> bool {
        match self.meaning() {
            Some(Meaning::Register(_) | Meaning::Word(_)) => return true,
            Some(Meaning::Short(a)) => return matches!(a.sort(), Sort::Test | Sort::Value),
            _ => {}
        }
        matches!(self.peek(), Token::Number(_)) || self.sees_next("true") || self.sees_next("false")
    }

    /// Chop binds least, then `|`, then `&`.
    pub fn interval(&mut self) -> Parsed<I> {
        self.inside(Self::chopped)
    }

    fn chopped(&mut self) -> Parsed<I> {
        let a = self.either_interval()?;
        Ok(if self.take(";") { chop(&a, &self.interval()?) } else { a })
    }

    fn either_interval(&mut self) -> Parsed<I> {
        let a = self.both_interval()?;
        Ok(if self.take("|") { either(&a, &self.inside(Self::either_interval)?) } else { a })
    }

    fn both_interval(&mut self) -> Parsed<I> {
        let a = self.interval_unit()?;
        Ok(if self.take("&") { both(&a, &self.inside(Self::both_interval)?) } else { a })
    }

    fn interval_unit(&mut self) -> Parsed<I> {
        if let Some(i) = self.short(Formula::interval) {
            return Ok(i);
        }
        if self.take("[") {
            let e = self.test()?;
            self.expect("]")?;
            return Ok(all(&e));
        }
        if self.take("one") {
            let x = self.word()?;
            if self.take("=") {
                return Ok(Interval::one_equal(x, self.value()?).into());
            }
            return Ok(Interval::One(x).into());
        }
        if self.take("(") {
            let i = self.interval()?;
            self.expect(")")?;
            return Ok(i);
        }
        self.unfit("an interval")
    }

    pub fn word(&mut self) -> Result<u8, Mistake> {
        let Some(Meaning::Word(x)) = self.meaning() else { return self.unfit("a word") };
        let x = *x;
        self.at += 1;
        Ok(x)
    }

    pub fn test(&mut self) -> Parsed<T> {
        self.inside(Self::test_or)
    }

    fn test_or(&mut self) -> Parsed<T> {
        let a = self.test_and()?;
        Ok(if self.take("or") { or(&a, &self.test()?) } else { a })
    }

    fn test_and(&mut self) -> Parsed<T> {
        let a = self.test_unit()?;
        Ok(if self.take("and") { and(&a, &self.inside(Self::test_and)?) } else { a })
    }

    fn test_unit(&mut self) -> Parsed<T> {
        if let Some(e) = self.short(Formula::test) {
            return Ok(e);
        }
        if self.take("not") {
            return Ok(not(&self.inside(Self::test_unit)?));
        }
        if self.take("true") {
            return Ok(truth());
        }
        if self.take("false") {
            return Ok(falsehood());
        }
        if self.take("unsync") {
            return Ok(Test::Unsync(self.word()?).into());
        }
        if self.take("cov") {
            return Ok(Test::Covered(self.word()?).into());
        }
        if !self.sees_next("(") {
            return self.comparison();
        }
        let start = self.at;
        let first = match self.bracketed_test() {
            Ok(e) => return Ok(e),
            Err(e) => (self.at, e),
        };
        // A value in parentheses may stand here instead. Of two mistakes the one further on is told.
        self.at = start;
        self.comparison().map_err(|e| if self.at >= first.0 { e } else { first.1 })
    }

    fn bracketed_test(&mut self) -> Parsed<T> {
        self.expect("(")?;
        let e = self.test()?;
        self.expect(")")?;
        Ok(e)
    }

    fn comparison(&mut self) -> Parsed<T> {
        let a = self.value()?;
        for mark in ["=", "!=", "<=", ">=", "<", ">"] {
            if self.take(mark) {
                let b = self.value()?;
                return Ok(match mark {
                    "=" => equal(&a, &b),
                    "!=" => not(&equal(&a, &b)),
                    "<" => less(&a, &b),
                    ">" => less(&b, &a),
                    "<=" => not(&less(&b, &a)),
                    _ => not(&less(&a, &b)),
                });
            }
        }
        self.wanted("a comparison (=, !=, <, >, <=, >=)")
    }

    /// Sums nest to the left.
    pub fn value(&mut self) -> Parsed<V> {
        self.inside(Self::summed)
    }

    fn summed(&mut self) -> Parsed<V> {
        let mut a = self.value_unit()?;
        let mut count = 1;
        while self.sees_next("+") {
            count += 1;
            if count > MOST_DEPTH {
                return self.fail(format!(
                    "this sum is nested too deep: {NESTING} is the most for a formula"
                ));
            }
            self.at += 1;
            a = sum(&a, &self.value_unit()?);
        }
        Ok(a)
    }

    fn value_unit(&mut self) -> Parsed<V> {
        if let Some(v) = self.short(Formula::value) {
            return Ok(v);
        }
        if let Token::Number(n) = *self.peek() {
            if n >= usize::from(self.scope.range) {
                return self.fail(format!("{n} is no value: values are {}", self.scope.values()));
            }
            self.at += 1;
            return Ok(constant(n as u8));
        }
        if self.take("(") {
            let v = self.value()?;
            self.expect(")")?;
            return Ok(v);
        }
        let v = match self.meaning() {
            Some(Meaning::Word(x)) => word(*x),
            Some(Meaning::Register(r)) => register(*r),
            _ => return self.unfit("a value"),
        };
        self.at += 1;
        Ok(v)
    }

    /// A formula of a known sort.
    pub fn of_sort(&mut self, sort: Sort) -> Parsed<Formula> {
        Ok(match sort {
            Sort::Value => Formula::Value(self.value()?),
            Sort::Test => Formula::Test(self.test()?),
            Sort::Interval => Formula::Interval(self.interval()?),
            Sort::Assertion => Formula::Assertion(self.assertion()?),
        })
    }
}

/// An assertion made of tests of registers alone, as one test.
fn as_test(a: &A) -> Option<T> {
    match &**a {
        Assertion::Holds(e) => Some(e.clone()),
        Assertion::Both(p, q) => Some(and(&as_test(p)?, &as_test(q)?)),
        Assertion::Either(p, q) => Some(or(&as_test(p)?, &as_test(q)?)),
        _ => None,
    }
}

#[cfg(test)]
mod tests {
    use super::*;
    use crate::text::lex::tokens;
    use crate::text::scope::Scope;

    fn parse(text: &str) -> Result<A, Mistake> {
        let all = format!("word x = 0 word y = 0 thread a registers r, q thread b {{ {text} }}");
        let list = tokens(&all).list;
        let (scope, _) = Scope::scan(&list);
        let at = list.iter().position(|t| t.0 == Token::Mark("{")).unwrap() + 1;
        let mut cursor = Cursor::of(&list, scope);
        cursor.at = at;
        let a = cursor.assertion()?;
        cursor.expect("}")?;
        Ok(a)
    }

    /// Printing and reading again gives the same formula.
    fn same(text: &str) {
        let a = parse(text).unwrap();
        let names = crate::text::print::Names {
            words: vec!["x".into(), "y".into()],
            registers: vec!["r".into(), "q".into()],
            threads: vec!["a".into(), "b".into()],
            ..Default::default()
        };
        let shown = names.assertion(&a);
        assert_eq!(parse(&shown).unwrap(), a, "{shown}");
    }

    #[test]
    fn printed_text_reads_back() {
        same("a sees [x = 0] ; [unsync x] ; [y = 1] and b sees one x = r + 1");
        same("(r = 1 or q != 2) and holds (r = 1 or q != 2) or false");
        same("r = 1 and q = 2 => a sees (([x = 0] ; one y) ; [not cov x]) & one x | [true]");
        same("r + (q + 1) < 2 and holds (not (not (r < 1))) and (r = 1 and true) or true");
        same("holds not (r = 1 and q = 1) and r <= q");
        same("a sees ([x = 0] | [x = 1]) & one y & [(x + 1) + y = 2 or not not unsync y]");
    }

    #[test]
    fn arrow_is_not_or() {
        let want = either(&holds(&not(&equal(&register(1), &constant(1)))), &holds(&truth()));
        assert_eq!(parse("r = 1 => true").unwrap(), want);
    }

    #[test]
    fn mistakes_are_told() {
        assert!(parse("x = 1").unwrap_err().text.contains("registers only"));
        assert!(parse("a sees r").unwrap_err().text.contains("`r` is a register"));
        assert!(parse("r = 8").unwrap_err().text.contains("0 to 7"));
        assert!(parse("a sees one z").unwrap_err().text.contains("not declared"));
        assert!(parse("a sees one x => true").unwrap_err().text.contains("before `=>`"));
    }
}
