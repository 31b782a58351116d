//! The text of a litmus test to a test.

use super::said::{said, Said, Scope};
use super::start::start;
use super::Litmus;
use crate::c::access::Word;
use crate::c::lex::{tokens, Form, Kind, Token};
use crate::c::parse::Parser;
use crate::c::program::{Function, Whole};
use crate::c::tree::{self, Declaration};
use crate::c::types::{self, MOST};
use crate::c::{assigned, lower, order, refuse, values, At, Read};
use crate::text::lex::Place;
use reference::explore::Bounds;

/// Reads a test; the bounds are for what has to be looked at to know how great values get.
pub fn read(text: &str, bounds: Bounds) -> Read<Litmus> {
    let (name, passed) = head(text)?;
    let tokens = tokens(text, Form::Litmus, passed, "")?.list;
    let mut parser = Parser::of(&tokens);
    let mut words = start(&mut parser)?;
    let threads = threads(&mut parser, &mut words)?;
    let mut functions: Vec<Function> = Vec::new();
    for thread in threads {
        let before = functions.iter().map(|f| f.code.locals.len()).sum();
        let code = lower::lower(&words, before, &thread)?;
        order::check(&code)?;
        assigned::check(&code, before)?;
        functions.push(Function { name: thread.name, code, at: thread.at });
    }
    let behind = parser.here();
    let Said { condition, shown, most } =
        said(&mut parser, &Scope { words: &words, functions: &functions })?;
    let told = written(behind.place, &tokens);
    let whole = Whole { words, functions };
    whole.check_room()?;
    let fits = values::fitting(&whole, bounds, most)?;
    let names = whole.names();
    Ok(Litmus { name, whole, names, fits, condition, told, shown })
}

fn at(line: usize, column: usize) -> At {
    At { file: 0, place: Place { line, column } }
}

/// The name, and how many lines stand before the start state: `C NAME`, then a title, notes and comments.
fn head(text: &str) -> Read<(String, usize)> {
    let mut lines = text.lines().enumerate().skip_while(|(_, line)| line.trim().is_empty());
    let Some((number, first)) = lines.next() else {
        return refuse(at(1, 1), "a litmus test is wanted, found nothing");
    };
    let (arch, name) = first.trim().split_once(char::is_whitespace).unwrap_or((first.trim(), ""));
    if arch != "C" || name.trim().is_empty() {
        return refuse(
            at(number + 1, 1),
            "`C` and the test's name are wanted in the first line: tests of C are read, others not",
        );
    }
    let mut depth = 0;
    for (number, line) in lines {
        if begins(line, &mut depth) {
            return Ok((name.trim().to_string(), number));
        }
    }
    refuse(
        at(text.lines().count().max(1), 1),
        "the start state is wanted, in `{ }`, before the threads",
    )
}

/// Does the start state begin in this line? Comments may go over several lines; so deep are they.
fn begins(line: &str, depth: &mut usize) -> bool {
    let mut outside = String::new();
    let mut rest = line.chars().peekable();
    while let Some(c) = rest.next() {
        let pair = (c, rest.peek().copied());
        match pair {
            ('(', Some('*')) => *depth += 1,
            ('*', Some(')')) => *depth = depth.saturating_sub(1),
            _ if *depth == 0 => outside.push(c),
            _ => {}
        }
        if matches!(pair, ('(', Some('*')) | ('*', Some(')'))) {
            rest.next();
        }
    }
    outside.trim_start().starts_with('{')
}

/// The threads in their order; the words that their parameters name are added.
fn threads(parser: &mut Parser, words: &mut Vec<Word>) -> Read<Vec<tree::Function>> {
    let mut all: Vec<tree::Function> = Vec::new();
    while matches!(parser.peek(), Kind::Name(name) if is_thread(name)) || parser.sees("void") {
        parser.take("void");
        let at = parser.here();
        let name = parser.name()?;
        if name != format!("P{}", all.len()) {
            return refuse(at, format!("the thread `P{}` is wanted, found `{name}`", all.len()));
        }
        let parameters = parameters(parser, words)?;
        parser.expect("{")?;
        let body = parser.block()?;
        all.push(tree::Function { name, parameters, body, at, end: parser.behind() });
    }
    match all.is_empty() {
        true => parser.wanted("the thread `P0`"),
        false => Ok(all),
    }
}

fn is_thread(name: &str) -> bool {
    let digits = name.strip_prefix('P').unwrap_or_default();
    !digits.is_empty() && digits.chars().all(|c| c.is_ascii_digit())
}

/// `(atomic_int* x, ..)`: pointers to words.
fn parameters(parser: &mut Parser, words: &mut Vec<Word>) -> Read<Vec<Declaration>> {
    let mut all = Vec::new();
    parser.expect("(")?;
    while !parser.take(")") {
        let at = parser.here();
        let of = types::of(parser)?;
        if parser.take(")") {
            break;
        }
        let place = parser.here();
        let name = parser.name()?;
        let Some(most) = of.most.filter(|_| of.pointers == 1) else {
            return refuse(
                at,
                format!("`{name}` is no pointer to a word, and what else it holds is not known"),
            );
        };
        if !words.iter().any(|word| word.name == name) {
            words.push(Word {
                name: name.clone(),
                start: 0,
                most: most.min(MOST),
                at: place,
                is_pointer: true,
            });
        }
        all.push(Declaration { name, of, value: None, at: place });
        if !parser.sees(")") {
            parser.expect(",")?;
        }
    }
    Ok(all)
}

/// What stands from a place to the end, without comments, in one line.
fn written(from: Place, tokens: &[Token]) -> String {
    let behind = tokens.iter().filter(|token| token.at.place >= from && token.kind != Kind::End);
    let shown = behind.map(|token| token.kind.shown().trim_matches('`').to_string());
    let spaced = shown.collect::<Vec<String>>().join(" ");
    let tight = [
        (" : ", ":"),
        (" = ", "="),
        ("( ", "("),
        (" )", ")"),
        ("~ ", "~"),
        ("[ ", "["),
        (" ]", "]"),
        (" ;", ";"),
    ];
    tight.iter().fold(spaced, |text, (from, to)| text.replace(from, to))
}
