//! Tokens to expressions.

use super::lex::{Kind, Token};
use super::tree::{Expression, Node};
use super::types::{self, is_type};
use super::{refuse, At, Read};

/// So many parts are read inside each other: far more than an instruction holds, and far less than the stack does.
const MOST_DEPTH: usize = 100;

/// A place in the tokens.
pub struct Parser<'a> {
    tokens: &'a [Token],
    at: usize,
    depth: usize,
}

/// Infix operators, loosest first.
const LEVELS: [&[&str]; 10] = [
    &["||"],
    &["&&"],
    &["|"],
    &["^"],
    &["&"],
    &["==", "!="],
    &["<", ">", "<=", ">="],
    &["<<", ">>"],
    &["+", "-"],
    &["*", "/", "%"],
];

const ASSIGNING: [&str; 11] = ["=", "+=", "-=", "*=", "/=", "%=", "&=", "|=", "^=", "<<=", ">>="];

const PREFIXES: [&str; 8] = ["!", "*", "&", "-", "+", "~", "++", "--"];

impl<'a> Parser<'a> {
    pub fn of(tokens: &'a [Token]) -> Parser<'a> {
        Parser { tokens, at: 0, depth: 0 }
    }

    fn token(&self, ahead: usize) -> &'a Token {
        &self.tokens[(self.at + ahead).min(self.tokens.len() - 1)]
    }

    pub fn peek(&self) -> &'a Kind {
        &self.token(0).kind
    }

    pub fn peek_at(&self, ahead: usize) -> &'a Kind {
        &self.token(ahead).kind
    }

    pub fn here(&self) -> At {
        self.token(0).at
    }

    /// The place of the token that was taken last.
    pub fn behind(&self) -> At {
        self.tokens[self.at.clamp(1, self.tokens.len()) - 1].at
    }

    pub fn next(&mut self) {
        self.at = (self.at + 1).min(self.tokens.len());
    }

    pub fn is_at_end(&self) -> bool {
        *self.peek() == Kind::End
    }

    pub fn sees(&self, text: &str) -> bool {
        match self.peek() {
            Kind::Mark(mark) => *mark == text,
            Kind::Name(name) => name == text,
            _ => false,
        }
    }

    /// Takes the mark or the word if it is next.
    pub fn take(&mut self, text: &str) -> bool {
        let found = self.sees(text);
        if found {
            self.next();
        }
        found
    }

    pub fn expect(&mut self, text: &str) -> Read<()> {
        match self.take(text) {
            true => Ok(()),
            false => self.wanted(&format!("`{text}`")),
        }
    }

    pub fn wanted<T>(&self, what: &str) -> Read<T> {
        refuse(self.here(), format!("{what} is wanted, found {}", self.peek().shown()))
    }

    pub fn name(&mut self) -> Read<String> {
        let Kind::Name(name) = self.peek() else { return self.wanted("a name") };
        self.next();
        Ok(name.clone())
    }

    /// Does a type begin here?
    pub fn sees_type(&self) -> bool {
        matches!(self.peek(), Kind::Name(name) if is_type(name))
    }

    /// Reads a part inside the one that is being read, unless there are too many already.
    pub fn inside<T>(&mut self, read: impl FnOnce(&mut Self) -> Read<T>) -> Read<T> {
        if self.depth == MOST_DEPTH {
            return refuse(self.here(), "this is nested too deep");
        }
        self.depth += 1;
        let read = read(self);
        self.depth -= 1;
        read
    }

    /// An expression, an assignment among them.
    pub fn expression(&mut self) -> Read<Expression> {
        self.inside(Self::assignment)
    }

    fn assignment(&mut self) -> Read<Expression> {
        let left = self.infix(0)?;
        let at = self.here();
        if self.take("?") {
            return refuse(at, "a choice by `?` is no instruction; `if` is");
        }
        let Some(mark) = ASSIGNING.iter().find(|mark| self.take(mark)) else { return Ok(left) };
        let right = self.expression()?;
        Ok(Expression::new(Node::Assign(mark, left.into(), right.into()), at))
    }

    /// Infix operators of a level and tighter ones; all nest to the left.
    fn infix(&mut self, level: usize) -> Read<Expression> {
        let Some(marks) = LEVELS.get(level) else { return self.inside(Self::prefixed) };
        let mut left = self.infix(level + 1)?;
        let mut count = 0;
        loop {
            let at = self.here();
            let Some(mark) = marks.iter().find(|mark| self.take(mark)) else { return Ok(left) };
            count += 1;
            if count > MOST_DEPTH {
                return refuse(at, "this is nested too deep");
            }
            let right = self.infix(level + 1)?;
            left = Expression::new(Node::Infix(mark, left.into(), right.into()), at);
        }
    }

    fn prefixed(&mut self) -> Read<Expression> {
        let at = self.here();
        if let Some(mark) = PREFIXES.iter().find(|mark| self.take(mark)) {
            let part = self.inside(Self::prefixed)?;
            return Ok(Expression::new(Node::Prefix(mark, part.into()), at));
        }
        let is_cast =
            self.sees("(") && matches!(self.peek_at(1), Kind::Name(name) if is_type(name));
        if is_cast {
            self.next();
            let to = types::of(self)?;
            self.expect(")")?;
            let part = self.inside(Self::prefixed)?;
            return Ok(Expression::new(Node::Cast(to, part.into()), at));
        }
        self.postfixed()
    }

    fn postfixed(&mut self) -> Read<Expression> {
        let mut found = self.unit()?;
        loop {
            let at = self.here();
            found = match self.peek() {
                Kind::Mark(mark @ ("++" | "--")) => {
                    self.next();
                    if matches!(found.is, Node::Postfix(..)) {
                        return refuse(at, "this cannot stand here");
                    }
                    Expression::new(Node::Postfix(mark, found.into()), at)
                }
                Kind::Mark("[") => {
                    return refuse(at, "arrays have no counterpart: words are single objects")
                }
                Kind::Mark("." | "->") => {
                    return refuse(at, "members have no counterpart: words are single objects")
                }
                Kind::Mark("(") => {
                    return refuse(at, "only functions that are named here are called")
                }
                _ => return Ok(found),
            };
        }
    }

    fn unit(&mut self) -> Read<Expression> {
        let at = self.here();
        match self.peek().clone() {
            Kind::Number(number) => {
                self.next();
                Ok(Expression::new(Node::Number(number), at))
            }
            Kind::Name(name) if name == "sizeof" => {
                refuse(at, "`sizeof` has no counterpart: values are those of the range")
            }
            Kind::Name(name) => {
                self.next();
                match self.take("(") {
                    true => Ok(Expression::new(Node::Call(name, self.arguments()?), at)),
                    false => Ok(Expression::new(Node::Name(name), at)),
                }
            }
            Kind::Mark("(") if matches!(self.peek_at(1), Kind::Mark("{")) => {
                refuse(at, "a block in an expression is no part of the subset")
            }
            Kind::Mark("(") => {
                self.next();
                let inner = self.expression()?;
                self.expect(")")?;
                Ok(inner)
            }
            Kind::Text(_) => {
                self.next();
                Ok(Expression::new(Node::Other("a string"), at))
            }
            Kind::Char => {
                self.next();
                Ok(Expression::new(Node::Other("a character"), at))
            }
            _ => self.wanted("a value"),
        }
    }

    /// What stands in a call's parentheses, the first of which was taken.
    fn arguments(&mut self) -> Read<Vec<Expression>> {
        let mut all = Vec::new();
        if self.take(")") {
            return Ok(all);
        }
        loop {
            all.push(self.expression()?);
            if self.take(")") {
                return Ok(all);
            }
            self.expect(",")?;
        }
    }
}
