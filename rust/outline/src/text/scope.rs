//! What the names in a source stand for.

use crate::text::lex::{Mistake, Place, Token, KEYWORDS};
use crate::text::print::Names;
use crate::text::sort_name;
use reference::checker::limits;
use reference::formula::parse::Counts;
use reference::formula::{Formula, Sort};
use reference::image::Header;
use std::collections::BTreeMap;

/// What one name stands for.
#[derive(Debug, Clone)]
pub enum Meaning {
    Word(u8),
    Register(u8),
    Thread(u8),
    Short(Formula),
    /// A register of several threads: `THREAD:NAME` says which is meant, and inside of a thread its own is.
    Alike,
}

/// The range of a source that names none.
const USUAL_RANGE: u8 = 8;

/// All names of a source; words, registers and threads count from 1.
#[derive(Debug, Clone, Default)]
pub struct Scope {
    meanings: BTreeMap<String, Meaning>,
    /// How many values there are.
    pub range: u8,
    pub names: Names,
    pub starts: Vec<u8>,
    pub owners: Vec<u8>,
    /// For each register 1 if it starts at 0, 0 if it is open.
    pub marks: Vec<u8>,
    /// The thread that is being read.
    pub within: Option<u8>,
    /// For each register its name and its thread's.
    plain: Vec<(String, String)>,
}

/// A register's name behind its thread's.
fn qualified(thread: &str, name: &str) -> String {
    format!("{thread}:{name}")
}

impl Scope {
    pub fn get(&self, name: &str) -> Option<&Meaning> {
        let found = self.meanings.get(name);
        let own = match (found, self.within) {
            (Some(Meaning::Alike), Some(thread)) => {
                self.meanings.get(&qualified(self.names.thread(thread), name))
            }
            _ => None,
        };
        own.or(found)
    }

    /// The names that are declared so far.
    pub fn declared(&self) -> impl Iterator<Item = &str> {
        self.meanings.keys().map(String::as_str).filter(|name| !name.contains(':'))
    }

    /// The names of a program.
    pub fn of(names: &Names, header: &Header) -> Scope {
        let mut scope = Scope { range: header.counts.range, ..Scope::default() };
        scope.names.threads.clone_from(&names.threads);
        for (number, name) in (1..).zip(&names.words) {
            scope.meanings.insert(name.clone(), Meaning::Word(number));
        }
        for (number, name) in (1..).zip(&names.threads) {
            scope.meanings.insert(name.clone(), Meaning::Thread(number));
        }
        for (name, owner) in names.registers.iter().zip(&header.owners) {
            let thread = names.thread(*owner);
            let plain = name.strip_prefix(&qualified(thread, "")).unwrap_or(name);
            scope.name_register(plain, thread);
        }
        scope
    }

    /// The tokens with `THREAD:REGISTER` as one name: of every register, or of those that are named alike.
    pub fn with_qualified(&self, list: Vec<(Token, Place)>, all: bool) -> Vec<(Token, Place)> {
        let mut joined: Vec<(Token, Place)> = Vec::with_capacity(list.len());
        for (token, place) in list {
            let name = match (&joined[..], &token) {
                ([.., (Token::Name(thread), _), (Token::Mark(":"), _)], Token::Name(name)) => {
                    let alike = matches!(self.meanings.get(name), Some(Meaning::Alike));
                    Some(qualified(thread, name)).filter(|_| all || alike)
                }
                _ => None,
            };
            match name.filter(|name| self.meanings.contains_key(name)) {
                Some(name) => {
                    joined.pop();
                    let place = joined.pop().map_or(place, |(_, place)| place);
                    joined.push((Token::Name(name), place));
                }
                None => joined.push((token, place)),
            }
        }
        joined
    }

    /// One more register, of this thread. A name that another thread has given to one of its own is told behind the
    /// thread's from then on.
    fn name_register(&mut self, name: &str, thread: &str) {
        let number = self.names.registers.len() as u8 + 1;
        let own = qualified(thread, name);
        let first = self.plain.iter().position(|(plain, _)| plain == name);
        if let Some(first) = first {
            self.names.registers[first] = qualified(&self.plain[first].1, name);
            self.meanings.insert(name.into(), Meaning::Alike);
        } else {
            self.meanings.insert(name.into(), Meaning::Register(number));
        }
        self.names.registers.push(first.map_or(name.into(), |_| own.clone()));
        self.meanings.insert(own, Meaning::Register(number));
        self.plain.push((name.into(), thread.into()));
    }

    /// What `let` has named so far.
    pub fn shorts(&self) -> Vec<(Formula, String)> {
        let short = |(name, meaning): (&String, &Meaning)| match meaning {
            Meaning::Short(formula) => Some((formula.clone(), name.clone())),
            _ => None,
        };
        self.meanings.iter().filter_map(short).collect()
    }

    /// Adds a `let` name.
    pub fn short(&mut self, name: &str, formula: Formula, line: Place) -> Result<(), Mistake> {
        self.add(name, Meaning::Short(formula), line)
    }

    fn add(&mut self, name: &str, meaning: Meaning, line: Place) -> Result<(), Mistake> {
        self.is_free(name, line)?;
        self.meanings.insert(name.to_string(), meaning);
        Ok(())
    }

    /// May this name be given to something?
    fn is_free(&self, name: &str, line: Place) -> Result<(), Mistake> {
        let fault = |text: String| Err(Mistake { line, text });
        if KEYWORDS.contains(&name) {
            return fault(format!("`{name}` is a word of the language and cannot be a name"));
        }
        if self.meanings.contains_key(name) {
            return fault(format!("the name `{name}` is given twice"));
        }
        Ok(())
    }

    /// Declares words, registers and threads ahead of reading, since assertions look ahead. Goes on past mistakes, of which there
    /// is at most one for each declaration.
    pub fn scan(tokens: &[(Token, Place)]) -> (Scope, Vec<Mistake>) {
        let (range, mut mistakes) = scan_range(tokens);
        let mut scope = Scope { range, ..Scope::default() };
        let mut owners_by_name = Vec::new();
        for i in 0..tokens.len() {
            let Token::Name(name) = &tokens[i].0 else { continue };
            let scanned = match name.as_str() {
                "word" => scope.scan_word(tokens, i),
                "thread" => scope.scan_thread(tokens, i),
                "registers" => scope.scan_registers(tokens, i),
                "register" => scope.scan_register(tokens, i, &mut owners_by_name),
                _ => Ok(()),
            };
            mistakes.extend(scanned.err());
        }
        for (r, (owner, line)) in owners_by_name {
            match scope.thread(&owner, line) {
                Ok(number) => scope.owners[r] = number,
                Err(mistake) => mistakes.push(mistake),
            }
        }
        (scope, mistakes)
    }

    fn scan_thread(&mut self, tokens: &[(Token, Place)], i: usize) -> Result<(), Mistake> {
        let (name, line) = name_at(tokens, i + 1)?;
        let number = numbered("threads", &mut self.names.threads, &name, limits::THREADS, line)?;
        self.add(&name, Meaning::Thread(number), line)
    }

    fn scan_register(
        &mut self,
        tokens: &[(Token, Place)],
        i: usize,
        owners: &mut Vec<(usize, (String, Place))>,
    ) -> Result<(), Mistake> {
        let (name, line) = name_at(tokens, i + 1)?;
        let owner = name_at(tokens, i + 3);
        let thread = owner.as_ref().map_or("", |(thread, _)| thread);
        self.add_register(&name, thread, 0, (mark(tokens, i), line))?;
        owners.push((self.owners.len() - 1, owner?));
        Ok(())
    }

    /// The number of a thread by its name.
    pub fn thread(&self, name: &str, line: Place) -> Result<u8, Mistake> {
        match self.get(name) {
            Some(Meaning::Thread(t)) => Ok(*t),
            _ => Err(Mistake { line, text: format!("`{name}` is no thread") }),
        }
    }

    fn scan_word(&mut self, tokens: &[(Token, Place)], i: usize) -> Result<(), Mistake> {
        let (name, line) = name_at(tokens, i + 1)?;
        let number = numbered("words", &mut self.names.words, &name, limits::WORDS, line)?;
        self.add(&name, Meaning::Word(number), line)?;
        let (found, place) = &tokens[(i + 3).min(tokens.len() - 1)];
        let value = match found {
            Token::Number(v) if *v < usize::from(self.range) => Some(*v as u8),
            _ => None,
        };
        self.starts.push(value.unwrap_or(0));
        if value.is_none() {
            let (values, found) = (self.values(), found.shown());
            let text = format!("word {name} needs a start value {values}, found {found}");
            return Err(Mistake { line: *place, text });
        }
        Ok(())
    }

    fn scan_registers(&mut self, tokens: &[(Token, Place)], i: usize) -> Result<(), Mistake> {
        let owner = self.names.threads.len() as u8;
        let thread = self.names.threads.last().cloned().unwrap_or_default();
        let mut at = i + 1;
        loop {
            let (name, line) = name_at(tokens, at)?;
            self.add_register(&name, &thread, owner, (mark(tokens, i), line))?;
            if tokens.get(at + 1).map(|t| &t.0) != Some(&Token::Mark(",")) {
                return Ok(());
            }
            at += 2;
        }
    }

    /// One more register, with its start mark and its place, if an image has room for it and its thread has none of this name.
    fn add_register(
        &mut self,
        name: &str,
        thread: &str,
        owner: u8,
        (mark, line): (u8, Place),
    ) -> Result<(), Mistake> {
        let count = self.names.registers.len() + 1;
        if count > usize::from(limits::REGISTERS) {
            let text = format!("{count} registers; an image has at most {}", limits::REGISTERS);
            return Err(Mistake { line, text });
        }
        let is_other =
            matches!(self.meanings.get(name), Some(Meaning::Register(_) | Meaning::Alike))
                && !self.meanings.contains_key(&qualified(thread, name));
        if !is_other {
            self.is_free(name, line)?;
        }
        self.owners.push(owner);
        self.marks.push(mark);
        self.name_register(name, thread);
        Ok(())
    }

    /// The values there are, for messages.
    pub fn values(&self) -> String {
        format!("0 to {}", self.range - 1)
    }

    /// The header of an image with these names.
    pub fn header(&self) -> Header {
        let counts = Counts {
            threads: self.names.threads.len() as u8,
            words: self.names.words.len() as u8,
            registers: self.names.registers.len() as u8,
            range: self.range,
        };
        let (start, owners, marks) = (self.starts.clone(), self.owners.clone(), self.marks.clone());
        Header { counts, start, owners, marks }
    }

    /// What an image needs and nothing has declared.
    pub fn missing(&self, end: Place) -> Option<Mistake> {
        let none = |what: &str, most: u8| {
            Some(Mistake { line: end, text: format!("0 {what}; an image has 1 to {most}") })
        };
        match (self.names.threads.is_empty(), self.names.words.is_empty()) {
            (true, _) => none("threads", limits::THREADS),
            (_, true) => none("words", limits::WORDS),
            _ => None,
        }
    }
}

/// One more name in a list that an image has room for. The first that has none is told; those behind it are left out too.
fn numbered(
    what: &str,
    names: &mut Vec<String>,
    name: &str,
    most: u8,
    line: Place,
) -> Result<u8, Mistake> {
    let count = names.len() + 1;
    if count > usize::from(most) {
        let text = format!("{count} {what}; an image has at most {most}");
        return Err(Mistake { line, text });
    }
    names.push(name.to_string());
    Ok(count as u8)
}

/// The start mark of the registers declared at a place: 0 behind `open`, else 1.
fn mark(tokens: &[(Token, Place)], i: usize) -> u8 {
    let before = i.checked_sub(1).map(|before| &tokens[before].0);
    u8::from(before != Some(&Token::Name("open".into())))
}

/// The number behind `range`, which may be left out; a wrong one is told, and the usual one taken.
fn scan_range(tokens: &[(Token, Place)]) -> (u8, Vec<Mistake>) {
    let is_range = |(token, _): &(Token, Place)| *token == Token::Name("range".into());
    let mut places = (0..tokens.len()).filter(|&at| is_range(&tokens[at]));
    let Some(at) = places.next() else { return (USUAL_RANGE, Vec::new()) };
    let twice =
        |again: usize| Mistake { line: tokens[again].1, text: "the range is given twice".into() };
    let mut mistakes: Vec<Mistake> = places.map(twice).collect();
    match &tokens[(at + 1).min(tokens.len() - 1)] {
        (Token::Number(range @ 2..=16), _) => (*range as u8, mistakes),
        (other, line) => {
            let text = format!("the range is 2 to 16 values, found {}", other.shown());
            mistakes.insert(0, Mistake { line: *line, text });
            (USUAL_RANGE, mistakes)
        }
    }
}

fn name_at(tokens: &[(Token, Place)], i: usize) -> Result<(String, Place), Mistake> {
    match tokens.get(i).or(tokens.last()) {
        Some((Token::Name(n), line)) => Ok((n.clone(), *line)),
        Some((t, line)) => {
            Err(Mistake { line: *line, text: format!("a name is wanted, found {}", t.shown()) })
        }
        None => Err(Mistake { line: 1.into(), text: "the text is empty".into() }),
    }
}

/// The sort of a `let` name, for messages.
pub fn describe(meaning: Option<&Meaning>) -> String {
    match meaning {
        None => "is not declared".into(),
        Some(Meaning::Word(_)) => "is a word".into(),
        Some(Meaning::Register(_)) => "is a register".into(),
        Some(Meaning::Thread(_)) => "is a thread".into(),
        Some(Meaning::Alike) => "is a register of several threads: `THREAD:NAME` says which".into(),
        Some(Meaning::Short(a)) => match a.sort() {
            Sort::Assertion => "stands for an assertion".into(),
            sort => format!("stands for a {}", sort_name(sort)),
        },
    }
}
