//! Tokens to statements.

use super::lex::Kind;
use super::parse::Parser;
use super::tree::{Act, Declaration, Expression, For, Statement};
use super::{refuse, types, Read};

/// Words that begin something which no program of the machine has.
const REFUSED: [&str; 7] =
    ["switch", "case", "default", "asm", "__asm__", "_Static_assert", "typedef"];

impl Parser<'_> {
    /// The statements of a block behind its `{`, and its `}`.
    pub fn block(&mut self) -> Read<Vec<Statement>> {
        let mut all = Vec::new();
        while !self.take("}") {
            if self.is_at_end() {
                return self.wanted("`}`");
            }
            all.push(self.inside(Self::statement)?);
        }
        Ok(all)
    }

    pub fn statement(&mut self) -> Read<Statement> {
        let at = self.here();
        let is = self.act()?;
        Ok(Statement { is, at })
    }

    fn act(&mut self) -> Read<Act> {
        if let Kind::Note(text) = self.peek() {
            self.next();
            return Ok(Act::Note(text.clone()));
        }
        if self.take("{") {
            return Ok(Act::Block(self.block()?));
        }
        if self.take(";") {
            return Ok(Act::Block(vec![]));
        }
        if let Some(word) = REFUSED.iter().find(|word| self.sees(word)) {
            return refuse(self.here(), format!("`{word}` is no part of the subset"));
        }
        if matches!((self.peek(), self.peek_at(1)), (Kind::Name(_), Kind::Mark(":"))) {
            let name = self.name()?;
            self.next();
            return Ok(Act::Label(name));
        }
        if self.sees_type() {
            let all = self.declarations()?;
            return Ok(Act::Declare(all));
        }
        match self.peek() {
            Kind::Name(word) => self.by_word(word),
            _ => self.plain(),
        }
    }

    /// A statement by the word that it begins with.
    fn by_word(&mut self, word: &str) -> Read<Act> {
        match word {
            "if" => self.choice(),
            "while" => {
                self.next();
                let test = self.in_parentheses()?;
                Ok(Act::While(test, self.inner()?))
            }
            "do" => self.do_while(),
            "for" => self.for_loop(),
            "goto" => {
                self.next();
                let to = self.name()?;
                self.end(Act::Goto(to))
            }
            "return" => {
                self.next();
                let value = if self.sees(";") { None } else { Some(self.expression()?) };
                self.end(Act::Return(value))
            }
            "break" => {
                self.next();
                self.end(Act::Break)
            }
            "continue" => {
                self.next();
                self.end(Act::Continue)
            }
            "else" => refuse(self.here(), "this `else` has no `if`"),
            _ => self.plain(),
        }
    }

    /// An expression as a statement.
    fn plain(&mut self) -> Read<Act> {
        let what = self.expression()?;
        self.end(Act::Do(what))
    }

    fn end(&mut self, act: Act) -> Read<Act> {
        self.expect(";")?;
        Ok(act)
    }

    fn inner(&mut self) -> Read<Box<Statement>> {
        Ok(Box::new(self.inside(Self::statement)?))
    }

    fn in_parentheses(&mut self) -> Read<Expression> {
        self.expect("(")?;
        let test = self.expression()?;
        self.expect(")")?;
        Ok(test)
    }

    fn choice(&mut self) -> Read<Act> {
        self.next();
        let test = self.in_parentheses()?;
        let then = self.inner()?;
        let other = if self.take("else") { Some(self.inner()?) } else { None };
        Ok(Act::If(test, then, other))
    }

    fn do_while(&mut self) -> Read<Act> {
        self.next();
        let body = self.inner()?;
        self.expect("while")?;
        let test = self.in_parentheses()?;
        self.end(Act::DoWhile(body, test))
    }

    fn for_loop(&mut self) -> Read<Act> {
        self.next();
        self.expect("(")?;
        let at = self.here();
        let first = if self.take(";") {
            None
        } else if self.sees_type() {
            Some(Statement { is: Act::Declare(self.declarations()?), at })
        } else {
            Some(Statement { is: self.plain()?, at })
        };
        let test = if self.sees(";") { None } else { Some(self.expression()?) };
        self.expect(";")?;
        let next = if self.sees(")") { None } else { Some(self.expression()?) };
        self.expect(")")?;
        let body = *self.inner()?;
        Ok(Act::For(Box::new(For { first, test, next, body })))
    }

    /// `TYPE NAME = VALUE, NAME;`
    pub fn declarations(&mut self) -> Read<Vec<Declaration>> {
        let base = types::of(self)?;
        let mut all = Vec::new();
        let mut of = base.clone();
        loop {
            let at = self.here();
            let name = self.name()?;
            all.push(self.declared(name, of, at)?);
            if self.take(";") {
                return Ok(all);
            }
            self.expect(",")?;
            of = types::Type { pointers: 0, ..base.clone() };
            while self.take("*") {
                of.pointers += 1;
            }
        }
    }

    /// A variable whose name was read.
    pub fn declared(&mut self, name: String, of: types::Type, at: super::At) -> Read<Declaration> {
        if self.sees("[") {
            return refuse(self.here(), "arrays have no counterpart: words are single objects");
        }
        if self.sees("(") {
            return refuse(self.here(), "a function cannot be declared here");
        }
        let value = if self.take("=") { Some(self.expression()?) } else { None };
        Ok(Declaration { name, of, value, at })
    }
}

#[cfg(test)]
mod tests {
    use super::super::lex::{tokens, Form};
    use super::*;
    use crate::c::tree::Node;

    fn read(text: &str) -> Read<Vec<Statement>> {
        let tokens = tokens(text, Form::Preprocessed, 0, "f")?;
        let mut parser = Parser::of(&tokens.list);
        parser.expect("{")?;
        parser.block()
    }

    #[test]
    fn statements_are_read_in_odd_layout() {
        let all = read(
            "{int a=1,b;if(a==1)b=2;else{}do a++;while(a<3);for(;;)break;out:goto out;;return 0;}",
        );
        let all = all.expect("statements");
        let kinds: Vec<&str> = all
            .iter()
            .map(|s| match s.is {
                Act::Declare(_) => "declare",
                Act::If(..) => "if",
                Act::DoWhile(..) => "do",
                Act::For(_) => "for",
                Act::Label(_) => "label",
                Act::Goto(_) => "goto",
                Act::Block(_) => "block",
                Act::Return(_) => "return",
                _ => "other",
            })
            .collect();
        assert_eq!(kinds, ["declare", "if", "do", "for", "label", "goto", "block", "return"]);
    }

    #[test]
    fn operators_bind_as_in_c() {
        let all = read("{ r = a + 1 == 2 && !b || c; }").expect("read");
        let Act::Do(e) = &all[0].is else { panic!("an expression") };
        let Node::Assign("=", _, right) = &e.is else { panic!("{e:?}") };
        let Node::Infix("||", left, _) = &right.is else { panic!("{right:?}") };
        let Node::Infix("&&", first, second) = &left.is else { panic!("{left:?}") };
        assert!(matches!(&first.is, Node::Infix("==", ..)));
        assert!(matches!(&second.is, Node::Prefix("!", _)));
    }

    #[test]
    fn what_is_not_in_the_subset_is_refused_at_its_place() {
        for (text, column, part) in [
            ("{ switch (a) {} }", 3, "`switch`"),
            ("{ a[1] = 2; }", 4, "arrays"),
            ("{ a = b ? 1 : 2; }", 9, "`if`"),
            ("{ s.x = 1; }", 4, "members"),
            ("{ a = ; }", 7, "a value is wanted"),
            ("{ a = 1 }", 9, "`;` is wanted"),
            ("{ if (a) else }", 10, "`else`"),
            ("{ struct s x; }", 3, "`struct`"),
            ("{ a = 1;", 9, "`}` is wanted"),
        ] {
            let refusal = read(text).expect_err(text);
            assert_eq!(refusal.at.place.column, column, "{text}: {}", refusal.text);
            assert!(refusal.text.contains(part), "{text}: {}", refusal.text);
        }
        let deep = format!("{{ a = {}1; }}", "(".repeat(100_000));
        assert!(read(&deep).expect_err("deep").text.contains("too deep"));
        let many = format!("{{ a = 1{}; }}", "+1".repeat(100_000));
        assert!(read(&many).expect_err("long").text.contains("too deep"));
        assert!(read(&"{".repeat(100_000)).expect_err("blocks").text.contains("too deep"));
    }
}
