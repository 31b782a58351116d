//! The condition of a litmus test.

use super::start::value;
use super::Shown;
use crate::c::access::Word;
use crate::c::lex::Kind;
use crate::c::parse::Parser;
use crate::c::program::Function;
use crate::c::{refuse, Read};
use crate::terms::*;
use crate::text::condition::{Condition, Quantifier};

/// What a condition may name.
pub struct Scope<'a> {
    pub words: &'a [Word],
    pub functions: &'a [Function],
}

/// The condition, what states are told by, and the greatest value that is named.
pub struct Said {
    pub condition: Condition,
    pub shown: Vec<Shown>,
    pub most: u8,
}

struct Reader<'p, 'a, 's> {
    parser: &'p mut Parser<'a>,
    scope: &'s Scope<'s>,
    shown: Vec<Shown>,
    most: u8,
    depth: usize,
}

/// So many parts stand inside each other, or in a row.
const MOST_PARTS: usize = 60;

/// `locations [..]`, then the condition, to the end of the test.
pub fn said(parser: &mut Parser, scope: &Scope) -> Read<Said> {
    let mut reader = Reader { parser, scope, shown: Vec::new(), most: 0, depth: 0 };
    if reader.parser.take("locations") {
        reader.locations()?;
    }
    if reader.parser.sees("filter") {
        return refuse(reader.parser.here(), "`filter` is not known here");
    }
    let quantifier = reader.quantifier()?;
    let test = reader.either()?;
    if !reader.parser.is_at_end() {
        return reader.parser.wanted("the end of the test");
    }
    reader.shown.sort();
    reader.shown.dedup();
    Ok(Said { condition: Condition { quantifier, test }, shown: reader.shown, most: reader.most })
}

impl Reader<'_, '_, '_> {
    fn locations(&mut self) -> Read<()> {
        self.parser.expect("[")?;
        while !self.parser.take("]") {
            self.location()?;
            if !self.parser.sees("]") {
                self.parser.expect(";")?;
            }
        }
        Ok(())
    }

    fn quantifier(&mut self) -> Read<Quantifier> {
        if self.parser.take("forall") {
            return Ok(Quantifier::Forall);
        }
        let negated = self.parser.take("~") || self.parser.take("not");
        match (self.parser.take("exists"), negated) {
            (true, true) => Ok(Quantifier::NotExists),
            (true, false) => Ok(Quantifier::Exists),
            _ => self.parser.wanted("`exists`, `~exists` or `forall`"),
        }
    }

    fn either(&mut self) -> Read<T> {
        let mut all = vec![self.both()?];
        while self.parser.take("\\/") {
            self.one_more(&all)?;
            all.push(self.both()?);
        }
        Ok(fold_right(&all, or).unwrap_or_else(falsehood))
    }

    fn both(&mut self) -> Read<T> {
        let mut all = vec![self.unit()?];
        while self.parser.take("/\\") {
            self.one_more(&all)?;
            all.push(self.unit()?);
        }
        Ok(fold_right(&all, and).unwrap_or_else(truth))
    }

    fn unit(&mut self) -> Read<T> {
        if self.parser.take("~") || self.parser.take("not") {
            return self.deeper(Self::unit).map(|test| not(&test));
        }
        if self.parser.take("(") {
            let test = self.deeper(Self::either)?;
            self.parser.expect(")")?;
            return Ok(test);
        }
        if self.parser.take("true") {
            return Ok(truth());
        }
        if self.parser.take("false") {
            return Ok(falsehood());
        }
        let named = self.location()?;
        self.parser.expect("=")?;
        let value = value(self.parser)?;
        self.most = self.most.max(value);
        Ok(equal(&named, &constant(value)))
    }

    /// A part inside of the one that is being read, unless there are too many already.
    fn deeper(&mut self, read: fn(&mut Self) -> Read<T>) -> Read<T> {
        if self.depth == MOST_PARTS {
            return refuse(self.parser.here(), "this is nested too deep");
        }
        self.depth += 1;
        let read = read(self);
        self.depth -= 1;
        read
    }

    /// One more part of a row of them.
    fn one_more(&self, parts: &[T]) -> Read<()> {
        match parts.len() < MOST_PARTS {
            true => Ok(()),
            false => refuse(
                self.parser.here(),
                format!("more than {MOST_PARTS} parts stand in a row here"),
            ),
        }
    }

    /// `0:r0`, `x`, `[x]` or `*x`.
    fn location(&mut self) -> Read<V> {
        if let Kind::Number(thread) = *self.parser.peek() {
            return self.register(thread);
        }
        let bracketed = self.parser.take("[");
        if !bracketed {
            self.parser.take("*");
        }
        let at = self.parser.here();
        let name = self.parser.name()?;
        if bracketed {
            self.parser.expect("]")?;
        }
        match self.scope.words.iter().position(|word| word.name == name) {
            Some(index) => {
                let number = index as u8 + 1;
                self.shown.push(Shown::Word { number, name });
                Ok(word(number))
            }
            None => refuse(at, format!("`{name}` is no word of this test")),
        }
    }

    fn register(&mut self, thread: u64) -> Read<V> {
        let at = self.parser.here();
        self.parser.next();
        self.parser.expect(":")?;
        let name = self.parser.name()?;
        let functions = self.scope.functions;
        let Some(index) = usize::try_from(thread).ok().filter(|index| *index < functions.len())
        else {
            return refuse(at, format!("there is no thread P{thread}"));
        };
        let before: usize = functions[..index].iter().map(|f| f.code.locals.len()).sum();
        let locals = functions[index].code.locals.iter().enumerate();
        let mut found = locals.filter(|(_, local)| local.name.as_ref() == Some(&name));
        match (found.next(), found.next()) {
            (Some((own, _)), None) => {
                let number = (before + own + 1) as u8;
                self.shown.push(Shown::Register { thread: index, number, name });
                Ok(register(number))
            }
            (None, _) => refuse(at, format!("P{thread} has no register `{name}`")),
            _ => refuse(
                at,
                format!("P{thread} has several variables `{name}`: which one is not said"),
            ),
        }
    }
}
