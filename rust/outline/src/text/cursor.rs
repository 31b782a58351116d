//! A place in the tokens, and what stands there.

use crate::text::lex::{Mistake, Place, Token, KEYWORDS};
use crate::text::nearest::nearest;
use crate::text::scope::{Meaning, Scope};
use reference::formula::nesting::NESTING;

/// A place in the tokens, with the names in force.
pub struct Cursor<'a> {
    pub tokens: &'a [(Token, Place)],
    pub at: usize,
    pub scope: Scope,
    /// How many formulas are being read, each inside the one before.
    depth: usize,
}

/// So many formulas are read inside each other: far more than an image holds, parentheses included, and far less than the
/// stack does.
pub const MOST_DEPTH: usize = 256;

pub type Parsed<S> = Result<S, Mistake>;

impl<'a> Cursor<'a> {
    pub fn of(tokens: &'a [(Token, Place)], scope: Scope) -> Cursor<'a> {
        Cursor { tokens, at: 0, scope, depth: 0 }
    }
}

impl Cursor<'_> {
    /// Reads a formula inside the one that is being read, unless there are too many already.
    pub fn inside<S>(&mut self, read: impl FnOnce(&mut Self) -> Parsed<S>) -> Parsed<S> {
        if self.depth == MOST_DEPTH {
            return self
                .fail(format!("this is nested too deep: {NESTING} is the most for a formula"));
        }
        self.depth += 1;
        let read = read(self);
        self.depth -= 1;
        read
    }

    pub fn peek(&self) -> &Token {
        &self.tokens[self.at.min(self.tokens.len() - 1)].0
    }
    pub fn line(&self) -> Place {
        self.tokens[self.at.min(self.tokens.len() - 1)].1
    }
    pub fn fail<T>(&self, text: String) -> Result<T, Mistake> {
        Err(Mistake { line: self.line(), text })
    }
    pub fn wanted<T>(&self, what: &str) -> Result<T, Mistake> {
        let meant = if what == "a name" { String::new() } else { self.meant() };
        self.fail(format!("{what} is wanted, found {}{meant}", self.peek().shown()))
    }
    /// What was probably meant by a name that is no word of the language and is not declared.
    pub fn meant(&self) -> String {
        let Token::Name(name) = self.peek() else { return String::new() };
        if name.len() < 3 || KEYWORDS.contains(&name.as_str()) || self.scope.get(name).is_some() {
            return String::new();
        }
        let known = KEYWORDS.iter().copied().chain(self.scope.declared());
        nearest(name, known).map(|meant| format!(": is `{meant}` meant?")).unwrap_or_default()
    }
    /// Takes the mark or keyword if it is next.
    pub fn take(&mut self, text: &str) -> bool {
        let found = self.sees_next(text);
        self.at += found as usize;
        found
    }
    pub fn sees_next(&self, text: &str) -> bool {
        match self.peek() {
            Token::Mark(m) => *m == text,
            Token::Name(n) => n == text,
            _ => false,
        }
    }
    pub fn expect(&mut self, text: &str) -> Result<(), Mistake> {
        if self.take(text) {
            return Ok(());
        }
        self.wanted(&format!("`{text}`"))
    }
    pub fn name(&mut self) -> Result<String, Mistake> {
        let Token::Name(n) = self.peek().clone() else { return self.wanted("a name") };
        self.at += 1;
        Ok(n)
    }
    pub fn number(&mut self) -> Result<usize, Mistake> {
        let Token::Number(n) = *self.peek() else { return self.wanted("a number") };
        self.at += 1;
        Ok(n)
    }

    /// The meaning of the name that is next, if a name is next.
    pub fn meaning(&self) -> Option<&Meaning> {
        match self.peek() {
            Token::Name(n) => self.scope.get(n),
            _ => None,
        }
    }
}
