//! A C file: its words, its functions, and what stands behind `//@` outside of them.

use crate::c::access::{is_reserved, Word};
use crate::c::lex::{Kind, Token};
use crate::c::parse::Parser;
use crate::c::tree::{self, Declaration, Expression, Node};
use crate::c::types::{self, MOST};
use crate::c::{refuse, At, Read};

/// A function, whose body is read when it is a thread.
#[derive(Debug, Clone)]
pub struct Function {
    pub name: String,
    parameters: Vec<Declaration>,
    /// The body from behind its `{`, with its `}`.
    body: Vec<Token>,
    pub at: At,
}

#[derive(Debug)]
pub struct File {
    pub words: Vec<Word>,
    external: Vec<String>,
    pub functions: Vec<Function>,
    pub notes: Vec<String>,
}

impl Function {
    /// Does this name stand in the body?
    pub fn names(&self, name: &str) -> bool {
        self.body.iter().any(|token| matches!(&token.kind, Kind::Name(other) if other == name))
    }

    pub fn read(&self) -> Read<tree::Function> {
        let end = self.body.last().map_or(self.at, |token| token.at);
        let tokens = [&self.body[..], &[Token { kind: Kind::End, at: end }]].concat();
        let body = Parser::of(&tokens).block()?;
        let (name, parameters) = (self.name.clone(), self.parameters.clone());
        Ok(tree::Function { name, parameters, body, at: self.at, end })
    }
}

impl File {
    pub fn of(tokens: &[Token]) -> Read<File> {
        let mut file = File { words: vec![], external: vec![], functions: vec![], notes: vec![] };
        let mut parser = Parser::of(tokens);
        while !parser.is_at_end() {
            file.item(&mut parser)?;
        }
        Ok(file)
    }

    pub fn is_extern(&self, name: &str) -> bool {
        self.external.iter().any(|other| other == name)
    }

    /// The functions that are named, in the order in which they are, or else those but `main` that name an atomic word.
    pub fn chosen(&self, names: &[String]) -> Read<Vec<&Function>> {
        let first = self.functions.first().map_or(
            At { file: 0, place: crate::text::lex::Place { line: 1, column: 0 } },
            |function| function.at,
        );
        let named =
            |name: &String| match self.functions.iter().find(|function| function.name == *name) {
                Some(function) => Ok(function),
                None => refuse(first, format!("there is no function `{name}` with a body")),
            };
        if !names.is_empty() {
            return names.iter().map(named).collect();
        }
        let takes_part = |function: &&Function| {
            function.name != "main" && self.words.iter().any(|word| function.names(&word.name))
        };
        let found: Vec<&Function> = self.functions.iter().filter(takes_part).collect();
        match found.is_empty() {
            true => {
                refuse(first, "no function but `main` names an atomic word: there is no thread")
            }
            false => Ok(found),
        }
    }

    /// A declaration, a function, or a note.
    fn item(&mut self, parser: &mut Parser) -> Read<()> {
        if parser.take(";") {
            return Ok(());
        }
        if let Kind::Note(text) = parser.peek() {
            return self.note(parser, text);
        }
        let of = types::of(parser)?;
        let at = parser.here();
        let name = parser.name()?;
        if parser.take("(") {
            return self.function(parser, name, at);
        }
        let base = types::Type { pointers: 0, ..of.clone() };
        let declared = parser.declared(name, of, at)?;
        self.global(declared)?;
        while parser.take(",") {
            let mut of = base.clone();
            while parser.take("*") {
                of.pointers += 1;
            }
            let at = parser.here();
            let name = parser.name()?;
            let declared = parser.declared(name, of, at)?;
            self.global(declared)?;
        }
        parser.expect(";")
    }

    /// `let` and `never` may stand outside of functions.
    fn note(&mut self, parser: &mut Parser, text: &str) -> Read<()> {
        if !text.starts_with("let ") && !text.starts_with("never ") {
            return refuse(
                parser.here(),
                "outside of functions `//@` has `let` or `never`; assertions stand in functions",
            );
        }
        parser.next();
        self.notes.push(text.into());
        Ok(())
    }

    fn function(&mut self, parser: &mut Parser, name: String, at: At) -> Read<()> {
        let parameters = parameters(parser)?;
        if is_reserved(&name) {
            return refuse(at, format!("`{name}` is the name of an access or an order"));
        }
        if parser.take(";") {
            return Ok(());
        }
        parser.expect("{")?;
        if self.functions.iter().any(|function| function.name == name) {
            return refuse(at, format!("the function `{name}` is given twice"));
        }
        let body = body(parser)?;
        self.functions.push(Function { name, parameters, body, at });
        Ok(())
    }

    /// An atomic number is a word; what else there is may not be accessed by threads.
    fn global(&mut self, one: Declaration) -> Read<()> {
        if is_reserved(&one.name) {
            return refuse(one.at, format!("`{}` is the name of an access or an order", one.name));
        }
        let Some(most) = one.of.most.filter(|_| one.of.is_atomic && one.of.pointers == 0) else {
            return Ok(());
        };
        if self.words.iter().any(|word| word.name == one.name) {
            return refuse(one.at, format!("`{}` is given twice", one.name));
        }
        if one.of.is_extern {
            self.external.push(one.name.clone());
        }
        let start = one.value.as_ref().map_or(Ok(0), start_value)?;
        let most = most.min(MOST);
        self.words.push(Word { name: one.name, start, most, at: one.at, is_pointer: false });
        Ok(())
    }
}

fn start_value(value: &Expression) -> Read<u8> {
    match &value.uncast().is {
        Node::Number(number) if *number <= u64::from(MOST) => Ok(*number as u8),
        Node::Name(name) if name == "true" => Ok(1),
        Node::Name(name) if name == "false" => Ok(0),
        _ => refuse(value.at, format!("a start value of 0 to {MOST} is wanted, as a number")),
    }
}

fn parameters(parser: &mut Parser) -> Read<Vec<Declaration>> {
    let mut all = Vec::new();
    while !parser.take(")") {
        if parser.take("...") {
            continue;
        }
        let of = types::of(parser)?;
        let at = parser.here();
        if let Kind::Name(name) = parser.peek() {
            parser.next();
            all.push(Declaration { name: name.clone(), of, value: None, at });
        }
        if parser.take("[") {
            parser.expect("]")?;
        }
        if !parser.sees(")") {
            parser.expect(",")?;
        }
    }
    Ok(all)
}

/// The tokens of a body behind its `{`, up to its `}`.
fn body(parser: &mut Parser) -> Read<Vec<Token>> {
    let mut depth = 1;
    let mut all = Vec::new();
    while depth > 0 {
        if parser.is_at_end() {
            return parser.wanted("`}`");
        }
        depth += usize::from(parser.sees("{"));
        depth -= usize::from(parser.sees("}"));
        all.push(Token { kind: parser.peek().clone(), at: parser.here() });
        parser.next();
    }
    Ok(all)
}
