//! Conditions of final states: a test of registers and of the words' last values, with a quantifier.

use crate::terms::*;
use crate::text::lex::{tokens, Mistake, Token, Tokens};
use crate::text::parse_formula::Cursor;
use crate::text::print::Names;
use crate::text::scope::Scope;
use reference::explore::last_view;
use reference::formula::atoms::{Atom, Atoms};
use reference::image::Header;
use reference::machine::State;

/// What is said of the final states in which the test is true.
#[derive(Debug, Clone, Copy, PartialEq, Eq)]
pub enum Quantifier {
    /// There is one.
    Exists,
    /// There is none.
    NotExists,
    /// There is no other.
    Forall,
}

#[derive(Debug, Clone, PartialEq, Eq)]
pub struct Condition {
    pub quantifier: Quantifier,
    /// A word stands for its last value.
    pub test: T,
}

impl Condition {
    /// Is the test true in a state, with the last values of the words?
    pub fn is_met(&self, state: &State) -> bool {
        self.test.evaluate(&state.seen_at(last_view(state)))
    }

    /// Does a final state decide the condition: is it one of those sought, or one against `forall`?
    pub fn decides(&self, state: &State) -> bool {
        self.is_met(state) != (self.quantifier == Quantifier::Forall)
    }
}

/// Reads a condition: `a = 1 and x = 0`, `exists (left:a = 1 /\ x = 0)`, `~exists (..)`, `forall (..)`.
pub fn parse_condition(names: &Names, header: &Header, text: &str) -> Result<Condition, Mistake> {
    let spelled = text.replace("/\\", " and ").replace("\\/", " or ").replace('~', " not ");
    let Tokens { list, mistakes } = tokens(&spelled);
    if let Some(mistake) = mistakes.into_iter().next() {
        return Err(mistake);
    }
    let scope = Scope::of(names, header);
    let list = scope.with_qualified(list, true);
    let mut cursor = Cursor::of(&list, scope);
    let quantifier = quantifier(&mut cursor);
    let test = cursor.test()?;
    if *cursor.peek() != Token::End {
        return cursor.wanted("the end of the test");
    }
    if test.has_atom(|atom| !matches!(atom, Atom::Register(_) | Atom::Word(_))) {
        let text = "a condition is a test of registers and of the words' last values";
        return Err(Mistake { line: 1.into(), text: text.into() });
    }
    Ok(Condition { quantifier, test })
}

/// The quantifier in front; without one the question is whether there is such a state.
fn quantifier(c: &mut Cursor) -> Quantifier {
    let is_free = |c: &Cursor, name: &str| c.sees_next(name) && c.scope.get(name).is_none();
    if is_free(c, "forall") && c.take("forall") {
        return Quantifier::Forall;
    }
    let start = c.at;
    let negated = c.take("not");
    if is_free(c, "exists") && c.take("exists") {
        return if negated { Quantifier::NotExists } else { Quantifier::Exists };
    }
    c.at = start;
    Quantifier::Exists
}

#[cfg(test)]
mod tests {
    use super::*;
    use crate::text::parse_source::parse;

    const ALIKE: &str = "word x = 0\nthread left registers a, b a <- x b <- x\n\
                         thread right registers a a <- x x := a + 1\n";

    fn read(text: &str) -> Result<Condition, String> {
        let source = parse(ALIKE).expect("a program");
        parse_condition(&source.names, &source.header, text).map_err(|e| e.text)
    }

    fn is(register: u8, value: u8) -> T {
        equal(&super::register(register), &constant(value))
    }

    #[test]
    fn registers_are_told_apart_by_their_threads() {
        let source = parse(ALIKE).expect("a program");
        assert_eq!(source.names.registers, ["left:a", "b", "right:a"]);
        assert_eq!(source.threads[1][0].result(), Some(3));
        let want = and(&is(1, 1), &is(3, 0));
        assert_eq!(read("left:a = 1 /\\ right:a = 0").map(|c| c.test), Ok(want));
        assert_eq!(read("left:b = 1").map(|c| c.test), Ok(is(2, 1)));
        let told = read("a = 1").expect_err("two registers");
        assert!(told.contains("`a` is a register of several threads"), "{told}");
    }

    #[test]
    fn quantifiers_and_marks_are_read() {
        let x = |value: u8| equal(&word(1), &constant(value));
        let want = |quantifier, test: &T| Ok(Condition { quantifier, test: test.clone() });
        let either = or(&x(1), &not(&x(2)));
        assert_eq!(read("x = 1 \\/ ~(x = 2)"), want(Quantifier::Exists, &either));
        assert_eq!(read("exists (x = 1)"), want(Quantifier::Exists, &x(1)));
        assert_eq!(read("~exists (x = 1)"), want(Quantifier::NotExists, &x(1)));
        assert_eq!(read("~ exists x = 1"), want(Quantifier::NotExists, &x(1)));
        assert_eq!(read("forall (x = 1)"), want(Quantifier::Forall, &x(1)));
        assert_eq!(read("not x = 1"), want(Quantifier::Exists, &not(&x(1))));
        assert!(read("x = 1 y").unwrap_err().contains("the end of the test"));
        assert!(read("cov x").unwrap_err().contains("last values"));
        assert!(read("forall").is_err() && read("").is_err() && read("~").is_err());
    }
}
