//! Where lines begin: declarations, points, instructions, named steps, and the lines of a certificate.

use crate::text::lex::{Place, Token, KEYWORDS};
use crate::text::source::{Point, Source};
use std::collections::BTreeMap;

/// The spaces before what a thread or a part has, and before an instruction.
const INNER: usize = 2;
const INSTRUCTION: usize = 4;

/// For each token the spaces before it, if a line begins there.
pub fn starts(list: &[(Token, Place)], source: &Source) -> Vec<Option<usize>> {
    let mut starts: Vec<Option<usize>> = (0..list.len()).map(|at| of_keyword(list, at)).collect();
    let places: BTreeMap<Place, usize> = (0..).zip(list).map(|(at, token)| (token.1, at)).collect();
    for point in source.points.iter().flatten() {
        if let Some(&at) = places.get(&point.line) {
            of_point(list, at, point, &mut starts);
        }
    }
    let named = source.hints.iter().filter_map(|hint| places.get(&hint.line));
    named.for_each(|&at| starts[at] = Some(INNER));
    let certificate = list.iter().position(|(token, _)| is(token, "certificate"));
    if let (Some(from), Some(_)) = (certificate, &source.certificate) {
        let ends = (from + 1..list.len()).find(|&at| starts[at].is_some());
        let lines = (from + 1..ends.unwrap_or(list.len())).filter(|&at| is_line(list, at));
        lines.for_each(|at| starts[at] = Some(INNER));
    }
    starts
}

fn is(token: &Token, text: &str) -> bool {
    matches!(token, Token::Name(name) if name == text)
        || matches!(token, Token::Mark(mark) if *mark == text)
}

/// The words that begin a declaration, a thread or a part; no name is one of them.
fn of_keyword(list: &[(Token, Place)], at: usize) -> Option<usize> {
    let Token::Name(name) = &list[at].0 else { return None };
    let open = at > 0 && is(&list[at - 1].0, "open");
    match name.as_str() {
        "range" | "word" | "let" | "thread" | "never" | "proof" | "certificate" => Some(0),
        "open" if list.get(at + 1).is_some_and(|next| is(&next.0, "registers")) => Some(INNER),
        "open" => Some(0),
        "register" if !open => Some(0),
        "registers" if !open => Some(INNER),
        _ => None,
    }
}

/// A point and the instruction behind it. In a thread without assertions a point is a label, or nothing.
fn of_point(list: &[(Token, Place)], at: usize, point: &Point, starts: &mut [Option<usize>]) {
    let mark = |at: usize, text: &str| list.get(at).is_some_and(|token| is(&token.0, text));
    let mut instruction = at;
    if mark(at, "{") {
        let labelled = at >= 2 && mark(at - 1, ":");
        starts[if labelled { at - 2 } else { at }] = Some(INNER);
        let end = (at..list.len()).find(|&end| mark(end, "}")).unwrap_or(list.len());
        instruction = if mark(end + 1, "@") { end + 3 } else { end + 1 };
    } else if point.hole && mark(at + 1, ":") {
        starts[at] = Some(INNER);
        instruction = at + 2;
    }
    if starts.get(instruction) == Some(&None) {
        let labels = mark(instruction, "{") || mark(instruction + 1, ":");
        starts[instruction] = Some(if labels { INNER } else { INSTRUCTION });
    }
}

/// Whether a line of a certificate begins here: its words may be names elsewhere, and stand there behind a mark.
fn is_line(list: &[(Token, Place)], at: usize) -> bool {
    let numbered = matches!(list.get(at + 1), Some((Token::Number(_), _)));
    let ends = match &list[at - 1].0 {
        Token::Name(name) => {
            let is_end = ["certificate", "true", "false", "start", "obligations", "claims"];
            is_end.contains(&name.as_str()) || !KEYWORDS.contains(&name.as_str())
        }
        Token::Number(_) => true,
        Token::Mark(mark) => [")", "]"].contains(mark),
        Token::End => false,
    };
    match &list[at].0 {
        Token::Name(name) if ["formula", "line"].contains(&name.as_str()) => numbered,
        Token::Name(name) => ends && ["obligations", "claims"].contains(&name.as_str()),
        _ => false,
    }
}
