//! The names of a text: what declares each, and where it stands. Tokens are enough for it, so it knows texts with mistakes too.

use crate::text::lex::{Place, Token, KEYWORDS};

#[derive(Debug, Clone, Copy, PartialEq, Eq)]
pub enum Kind {
    Word,
    Register,
    Thread,
    Let,
    Label,
}

/// A name with its tokens, the one that declares it among them.
#[derive(Debug, Clone)]
pub struct Symbol {
    pub kind: Kind,
    pub name: String,
    /// The thread that it belongs to: of labels and registers.
    pub thread: Option<String>,
    pub declared: usize,
    pub tokens: Vec<usize>,
}

#[derive(Debug, Default)]
pub struct Index {
    pub symbols: Vec<Symbol>,
}

type List = [(Token, Place)];

/// The name at a token, if it is none of the language's own words.
fn name(list: &List, at: usize) -> Option<&str> {
    match &list.get(at)?.0 {
        Token::Name(name) if !KEYWORDS.contains(&name.as_str()) => Some(name),
        _ => None,
    }
}

fn is(list: &List, at: usize, text: &str) -> bool {
    match list.get(at).map(|token| &token.0) {
        Some(Token::Name(name)) => name == text,
        Some(Token::Mark(mark)) => *mark == text,
        _ => false,
    }
}

/// The thread in which each token stands.
fn threads(list: &List) -> Vec<Option<String>> {
    let mut thread = None;
    let of_token = |at: usize| {
        if is(list, at, "thread") {
            thread = name(list, at + 1).map(String::from);
        }
        thread.clone()
    };
    (0..list.len()).map(of_token).collect()
}

impl Index {
    pub fn of(list: &List) -> Index {
        let mut index = Index::default();
        let threads = threads(list);
        (0..list.len()).for_each(|at| index.declare(list, at, &threads[at]));
        (0..list.len()).for_each(|at| index.refer(list, at, &threads[at]));
        index
    }

    fn declare(&mut self, list: &List, at: usize, thread: &Option<String>) {
        let next = |kind: Kind| name(list, at + 1).map(|name| (kind, name, at + 1, None));
        let declared = if is(list, at, "word") {
            next(Kind::Word)
        } else if is(list, at, "thread") {
            next(Kind::Thread)
        } else if is(list, at, "let") {
            next(Kind::Let)
        } else if is(list, at, "register") {
            let owner = name(list, at + 3).map(String::from);
            name(list, at + 1).map(|name| (Kind::Register, name, at + 1, owner))
        } else if is_listed_register(list, at) {
            name(list, at).map(|name| (Kind::Register, name, at, thread.clone()))
        } else if is(list, at + 1, ":") {
            name(list, at).map(|name| (Kind::Label, name, at, thread.clone()))
        } else {
            None
        };
        if let Some((kind, name, declared, thread)) = declared {
            if self.find(name, kind, &thread).is_none() {
                let name = name.to_string();
                self.symbols.push(Symbol { kind, name, thread, declared, tokens: Vec::new() });
            }
        }
    }

    /// The symbol with a name: a label of its thread, or what all other names have in common.
    fn find(&self, name: &str, kind: Kind, thread: &Option<String>) -> Option<usize> {
        let fits = |symbol: &Symbol| match kind {
            Kind::Label => symbol.kind == Kind::Label && symbol.thread == *thread,
            _ => symbol.kind != Kind::Label,
        };
        self.symbols.iter().position(|symbol| symbol.name == name && fits(symbol))
    }

    fn refer(&mut self, list: &List, at: usize, thread: &Option<String>) {
        let Some(found) = name(list, at) else { return };
        // `never THREAD POINT and THREAD POINT`
        let first = at >= 2 && is(list, at - 2, "never");
        let second = at >= 5 && is(list, at - 5, "never") && is(list, at - 2, "and");
        let symbol = if is(list, at + 1, ":") || at > 0 && is(list, at - 1, "goto") {
            self.find(found, Kind::Label, thread)
        } else if first || second {
            self.find(found, Kind::Label, &name(list, at - 1).map(String::from))
        } else {
            self.find(found, Kind::Word, thread)
        };
        if let Some(symbol) = symbol {
            self.symbols[symbol].tokens.push(at);
        }
    }

    /// The symbol at a token.
    pub fn at(&self, token: usize) -> Option<&Symbol> {
        self.symbols.iter().find(|symbol| symbol.tokens.contains(&token))
    }
}

/// Whether a token is in the list behind `registers`.
fn is_listed_register(list: &List, at: usize) -> bool {
    let mut before = at;
    while before >= 2 && is(list, before - 1, ",") && name(list, before - 2).is_some() {
        before -= 2;
    }
    before >= 1 && is(list, before - 1, "registers")
}
