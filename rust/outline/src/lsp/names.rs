//! Names: where they are declared and used, another name for one, the names of a text as a list, and what may come next.

use super::document::Document;
use super::index::{Kind, Symbol};
use super::position::{Position, Range};
use crate::command::json::{list, object, quoted};
use crate::text::lex::{Token, KEYWORDS};
use crate::text::parse_source::parse;
use crate::text::source::Source;

fn location(document: &Document, token: usize) -> String {
    let range = Range::of_token(&document.lines(), &document.list[token]);
    object(&[("uri", quoted(&document.uri)), ("range", range.json())])
}

fn symbol_at(document: &Document, position: Position) -> Option<&Symbol> {
    document.index.at(document.token_at(position)?)
}

pub fn definition(document: &Document, position: Position) -> String {
    symbol_at(document, position)
        .map_or("null".into(), |symbol| location(document, symbol.declared))
}

pub fn references(document: &Document, position: Position, with_declaration: bool) -> String {
    let Some(symbol) = symbol_at(document, position) else { return "null".into() };
    let wanted = |token: &&usize| with_declaration || **token != symbol.declared;
    list(symbol.tokens.iter().filter(wanted).map(|token| location(document, *token)))
}

/// The name that would be renamed here.
pub fn prepare(document: &Document, position: Position) -> String {
    let Some(token) = document.token_at(position) else { return "null".into() };
    let Some(symbol) = document.index.at(token) else { return "null".into() };
    let range = Range::of_token(&document.lines(), &document.list[token]);
    object(&[("range", range.json()), ("placeholder", quoted(&symbol.name))])
}

/// Another name for what stands here, everywhere; or why not.
pub fn rename(document: &Document, position: Position, name: &str) -> Result<String, String> {
    let symbol = symbol_at(document, position).ok_or("there is no name here")?;
    let letters = |c: char| c.is_ascii_alphanumeric() || c == '_' || c == '\'';
    let begins = name.starts_with(|c: char| c.is_ascii_alphabetic() || c == '_');
    if !begins || !name.chars().all(letters) {
        return Err(format!("`{name}` is no name: letters, digits, _ and ' are"));
    }
    if KEYWORDS.contains(&name) {
        return Err(format!("`{name}` is a word of the language and cannot be a name"));
    }
    let before =
        parse(&document.text).map_err(|mistake| format!("the text has a mistake: {mistake}"))?;
    let lines = document.lines();
    let ranges: Vec<Range> =
        symbol.tokens.iter().map(|token| Range::of_token(&lines, &document.list[*token])).collect();
    let mut text = document.text.clone();
    for range in ranges.iter().rev() {
        text.replace_range(document.offset(range.start)..document.offset(range.end), name);
    }
    let after =
        parse(&text).map_err(|mistake| format!("`{name}` cannot stand there: {}", mistake.text))?;
    if !says_the_same(&before, &after) {
        return Err(format!("`{name}` is a name already, and the text would say something else"));
    }
    let edit = |range: &Range| object(&[("range", range.json()), ("newText", quoted(name))]);
    let edits = list(ranges.iter().map(edit));
    Ok(object(&[("changes", format!("{{{}:{edits}}}", quoted(&document.uri)))]))
}

/// Whether two sources are the same but for names.
fn says_the_same(one: &Source, other: &Source) -> bool {
    let hints = |source: &Source| {
        let hint = |h: &crate::text::source::Hint| {
            format!("{:?} {:?} {:?}", h.statement, h.rule, h.middle)
        };
        source.hints.iter().map(hint).collect::<Vec<String>>()
    };
    let labelled = |source: &Source| {
        source.labels.iter().flatten().map(Option::is_some).collect::<Vec<bool>>()
    };
    let shorts = |source: &Source| {
        let mut all: Vec<String> =
            source.names.shorts.iter().map(|(f, _)| format!("{f:?}")).collect();
        all.sort();
        all
    };
    one.program() == other.program()
        && one.meetings() == other.meetings()
        && hints(one) == hints(other)
        && labelled(one) == labelled(other)
        && shorts(one) == shorts(other)
}

/// The numbers that the protocol has for kinds: of symbols, and of what is proposed.
fn kinds(kind: Kind) -> (u8, u8) {
    match kind {
        Kind::Word => (13, 6),
        Kind::Register => (8, 5),
        Kind::Thread => (2, 9),
        Kind::Let => (14, 21),
        Kind::Label => (20, 18),
    }
}

fn word_for(kind: Kind) -> &'static str {
    match kind {
        Kind::Word => "word",
        Kind::Register => "register",
        Kind::Thread => "thread",
        Kind::Let => "let",
        Kind::Label => "label",
    }
}

/// What a declaration, a thread or a part ends before.
const STARTS: [&str; 8] =
    ["thread", "never", "proof", "certificate", "let", "word", "register", "range"];

/// The names of the text, those of a thread below it, and the claims.
pub fn symbols(document: &Document) -> String {
    let symbols = &document.index.symbols;
    let outer = |symbol: &&Symbol| !is_inner(document, symbol);
    let mut all: Vec<(usize, String)> = symbols
        .iter()
        .filter(outer)
        .map(|symbol| (symbol.declared, one_symbol(document, symbol)))
        .collect();
    all.extend(document.places.claims.iter().map(|span| (span.0, claim(document, *span))));
    all.sort();
    list(all.into_iter().map(|(_, json)| json))
}

/// The last token of what begins with the token before a name.
fn end_of(document: &Document, declared: usize) -> usize {
    let list = &document.list;
    let starts = |at: &usize| match &list[*at].0 {
        Token::Name(name) => STARTS.contains(&name.as_str()),
        Token::End => true,
        _ => false,
    };
    (declared + 1..list.len()).find(starts).unwrap_or(list.len() - 1).max(declared + 1) - 1
}

/// Whether a symbol stands inside of a thread.
fn is_inner(document: &Document, symbol: &Symbol) -> bool {
    let holds = |thread: &Symbol| {
        thread.kind == Kind::Thread
            && (thread.declared..=end_of(document, thread.declared)).contains(&symbol.declared)
    };
    matches!(symbol.kind, Kind::Register | Kind::Label) && document.index.symbols.iter().any(holds)
}

fn one_symbol(document: &Document, symbol: &Symbol) -> String {
    let lines = document.lines();
    let name = Range::of_token(&lines, &document.list[symbol.declared]);
    let (range, children) = match symbol.kind {
        Kind::Register | Kind::Label => (name, Vec::new()),
        _ => {
            let end = end_of(document, symbol.declared);
            let inner = |other: &&Symbol| {
                symbol.kind == Kind::Thread
                    && is_inner(document, other)
                    && (symbol.declared..=end).contains(&other.declared)
            };
            let children = document.index.symbols.iter().filter(inner);
            let children: Vec<String> = children.map(|other| one_symbol(document, other)).collect();
            (Range::of_tokens(&lines, &document.list, symbol.declared - 1, end), children)
        }
    };
    object(&[
        ("name", quoted(&symbol.name)),
        ("detail", quoted(word_for(symbol.kind))),
        ("kind", kinds(symbol.kind).0.to_string()),
        ("range", range.json()),
        ("selectionRange", name.json()),
        ("children", list(children)),
    ])
}

fn claim(document: &Document, span: (usize, usize)) -> String {
    let words = document.list[span.0..=span.1.min(document.list.len() - 1)].iter();
    let words: Vec<String> =
        words.map(|(token, _)| token.shown().trim_matches('`').into()).collect();
    let range = Range::of_tokens(&document.lines(), &document.list, span.0, span.1);
    object(&[
        ("name", quoted(&words.join(" "))),
        ("detail", quoted("claim")),
        ("kind", "24".into()),
        ("range", range.json()),
        ("selectionRange", range.json()),
    ])
}

/// Names and keywords; behind `goto` the labels of the thread.
pub fn completion(document: &Document, position: Position) -> String {
    let is_goto = |at: usize| document.list[at].0 == Token::Name("goto".into());
    let before = document.token_before(position);
    // The word that is being written is not what comes before it.
    let jumps = before.is_some_and(|at| is_goto(at) || at > 0 && is_goto(at - 1));
    let thread = before.and_then(|at| thread_before(document, at));
    let fits = |symbol: &&Symbol| match symbol.kind {
        Kind::Label => jumps && symbol.thread == thread,
        _ => !jumps,
    };
    let item = |label: &str, kind: u8, detail: &str| {
        object(&[("label", quoted(label)), ("kind", kind.to_string()), ("detail", quoted(detail))])
    };
    let names = document.index.symbols.iter().filter(fits);
    let names = names.map(|s| item(&s.name, kinds(s.kind).1, word_for(s.kind)));
    let keywords = KEYWORDS.iter().filter(|_| !jumps).map(|word| item(word, 14, "keyword"));
    list(names.chain(keywords))
}

/// The thread in which a token stands.
fn thread_before(document: &Document, token: usize) -> Option<String> {
    let threads = document.index.symbols.iter().filter(|symbol| symbol.kind == Kind::Thread);
    let before = threads.filter(|symbol| symbol.declared <= token);
    before.max_by_key(|symbol| symbol.declared).map(|symbol| symbol.name.clone())
}
