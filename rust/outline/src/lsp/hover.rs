//! What is told of the place under the pointer: a name spelled out, a rule's text, obligations with their derivations.

use super::document::Document;
use super::index::{Kind, Symbol};
use super::position::{Position, Range};
use crate::command::explain::tree;
use crate::command::json::{object, quoted};
use crate::image;
use crate::judged::{is_accepted, judged, Goal};
use crate::report::rules;
use crate::text::lex::Token;
use crate::text::print::Names;
use crate::text::report;
use crate::text::source::Source;
use crate::watch::judgement::Judged;
use reference::checker::decode;
use reference::checker::obligations::Duty;
use std::collections::BTreeSet;

/// So many lines of derivations are shown.
const MOST_LINES: usize = 60;

/// The hover at a position as JSON, or null.
pub fn hover(document: &Document, position: Position) -> String {
    let told = document.token_at(position).and_then(|token| {
        let text = text(document, token)?;
        Some((Range::of_token(&document.lines(), &document.list[token]), text))
    });
    match told {
        None => "null".into(),
        Some((range, text)) => {
            let contents = object(&[("kind", quoted("markdown")), ("value", quoted(&text))]);
            object(&[("contents", contents), ("range", range.json())])
        }
    }
}

fn text(document: &Document, token: usize) -> Option<String> {
    if let Some(symbol) = document.index.at(token) {
        return Some(of_symbol(document, symbol));
    }
    if let Some(rule) = rule_at(document, token) {
        return rules::text(rule).map(String::from);
    }
    let judged = document.judged()?;
    let in_claim = |span: &(usize, usize)| (span.0..=span.1).contains(&token);
    if let Some(claim) = document.places.claims.iter().position(in_claim) {
        let wanted = Goal::Claim(judged.source.claims[claim].meeting);
        return derivations(judged, |goal| *goal == wanted);
    }
    let (t, p, instruction) = document.places.at(token)?;
    derivations(judged, |goal| match *goal {
        Goal::Duty(Duty::Next { thread, point } | Duty::Taken { thread, point }) => {
            instruction && (thread, point) == (t, p)
        }
        Goal::Duty(Duty::Start { thread }) => !instruction && (thread, 0) == (t, p),
        Goal::Duty(Duty::Kept { thread, point, .. }) => !instruction && (thread, point) == (t, p),
        Goal::Claim(_) => false,
    })
}

/// The rule that a number names, behind `by` or `rule`.
fn rule_at(document: &Document, token: usize) -> Option<u8> {
    let Token::Number(number) = document.list[token].0 else { return None };
    match &document.list[token.checked_sub(1)?].0 {
        Token::Name(name) if ["by", "rule"].contains(&name.as_str()) => u8::try_from(number).ok(),
        _ => None,
    }
}

fn of_symbol(document: &Document, symbol: &Symbol) -> String {
    let (name, source) = (&symbol.name, document.source());
    let of = symbol.thread.as_ref().map(|thread| format!(" of {thread}")).unwrap_or_default();
    match symbol.kind {
        Kind::Let => {
            let spelled = source.and_then(|source| spelled_out(source, name));
            let told = spelled.unwrap_or("(the text has mistakes)".into());
            format!("```outline\nlet {name} = {told}\n```")
        }
        Kind::Word => {
            let number = source.and_then(|s| s.names.words.iter().position(|word| word == name));
            let start = source.zip(number).map(|(s, n)| format!(" = {}", s.header.start[n]));
            format!("```outline\nword {name}{}\n```", start.unwrap_or_default())
        }
        Kind::Register => {
            let number = source.and_then(|s| s.names.registers.iter().position(|r| r == name));
            let open = source.zip(number).is_some_and(|(s, n)| s.header.marks[n] == 0);
            let (open, starts) = if open {
                ("open ", "may hold any value at the start")
            } else {
                ("", "starts at 0")
            };
            format!("```outline\n{open}register {name}{of}\n```\nIt {starts}.")
        }
        Kind::Thread => {
            let verdict = document.judged().map(Judged::words).unwrap_or_default();
            format!("```outline\nthread {name}\n```\n{verdict}")
        }
        Kind::Label => format!("```outline\nlabel {name}{of}\n```"),
    }
}

/// What a `let` stands for, without other names.
fn spelled_out(source: &Source, name: &str) -> Option<String> {
    let (formula, _) = source.names.shorts.iter().find(|(_, short)| short == name)?;
    let names = Names { shorts: Vec::new(), ..source.names.clone() };
    Some(names.formula(formula))
}

/// Obligations and claims with the lines that they rest on, as `explain` tells them.
fn derivations(outline: &Judged, wanted: impl Fn(&Goal) -> bool) -> Option<String> {
    let image = image::read(&outline.bytes).ok()?;
    let all = judged(&decode(&outline.bytes).ok()?);
    let accepted = is_accepted(&all, &outline.verdict).ok()?;
    let (names, source) = (&outline.source.names, Some(&outline.source));
    let mut told = BTreeSet::new();
    let mut lines: Vec<String> = Vec::new();
    for judged in all.iter().filter(|judged| wanted(&judged.goal)) {
        let place = match &judged.goal {
            Goal::Duty(duty) => report::duty(names, source, duty),
            Goal::Claim(meeting) => report::claim(names, source, meeting),
        };
        lines.push(format!("{place}: {}", judged.standing(accepted).told(judged.line)));
        lines.extend(tree(&image, names, judged.line, &mut told).lines().map(String::from));
    }
    if lines.is_empty() {
        return None;
    }
    let more = lines.len().saturating_sub(MOST_LINES);
    lines.truncate(MOST_LINES);
    if more > 0 {
        lines.push(format!("and {more} lines more: outline explain tells all"));
    }
    Some(format!("```\n{}\n```", lines.join("\n")))
}
