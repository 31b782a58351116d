//! What may be quoted of an accepted image: its claims, its last assertions, and of what they are true.

use super::parts::{self, code, formula, note, REFUSED};
use super::words::Words;
use super::{Content, Subject};
use crate::judged::Goal;
use crate::markup::{el, of, Element};
use crate::text::contract::{claim, EVERY_ORDER, MEANING};
use reference::formula::Assertion;

pub fn section(subject: &Subject, content: &Content) -> Element {
    let out = parts::section("quote", "What may be quoted");
    if !content.accepted {
        let said =
            format!("{REFUSED} nothing may be quoted but that, and the run if one is drawn.");
        return out.child(note(&said));
    }
    let front = format!("Of {}, whose image has the digest below, in {EVERY_ORDER}:", subject.file);
    let claims = claims(content);
    let last = last_assertions(content);
    let quoted: Vec<usize> = last.iter().flat_map(|(_, text)| used(&content.words, text)).collect();
    let last = last.iter().map(|(thread, text)| {
        let name = content.words.names.thread(*thread);
        let front = format!("Whenever {name} is at its last point, ");
        el("li").text(front).child(formula(&content.words, text)).text(" is true.")
    });
    let list: Vec<Element> = claims.into_iter().chain(last).collect();
    let none = "Neither a claim nor a last assertion says anything: quote the assertions of points, below.";
    let said = match list.is_empty() {
        true => el("p").text(none),
        false => el("ul").all(list),
    };
    let quoted_box = of("blockquote", "quote").child(el("p").text(front)).child(said);
    out.child(quoted_box.all(meanings(&content.words, &quoted))).child(note(MEANING))
}

fn claims(content: &Content) -> Vec<Element> {
    let names = &content.words.names;
    let claims = content.judged.iter().filter_map(|judged| match &judged.goal {
        Goal::Claim(meeting) => Some(el("li").text(claim(names, meeting))),
        Goal::Duty(_) => None,
    });
    claims.collect()
}

/// The assertions at the last points, as far as they say anything, each with its thread.
fn last_assertions(content: &Content) -> Vec<(u8, &str)> {
    let program = &content.image.program;
    let last = program.thread_numbers().map(|t| (t, program.outline[usize::from(t) - 1].len() - 1));
    let says = last.filter(|(t, p)| **program.assertion(*t, *p as u8) != Assertion::truth());
    says.map(|(t, p)| (t, content.words.assertion(t, p as u8))).collect()
}

/// The names of `let` that a text uses, and those that their formulas use, by number.
fn used(words: &Words, text: &str) -> Vec<usize> {
    let is_name = |c: char| c.is_ascii_alphanumeric() || c == '_' || c == '\'';
    let (mut found, mut waiting) = (Vec::new(), vec![text]);
    while let Some(text) = waiting.pop() {
        for word in text.split(|c| !is_name(c)) {
            let at = words.lets.iter().position(|(name, _)| name == word);
            if let Some(at) = at.filter(|at| !found.contains(at)) {
                found.push(at);
                waiting.push(&words.lets[at].1);
            }
        }
    }
    found
}

/// What the names of `let` stand for that a quote uses.
fn meanings(words: &Words, used: &[usize]) -> Option<Element> {
    let mut used = used.to_vec();
    used.sort_unstable();
    used.dedup();
    let one = |at: &usize| {
        let (name, text) = &words.lets[*at];
        el("li").text("where ").child(code(name)).text(" is ").child(code(text))
    };
    (!used.is_empty()).then(|| el("ul").all(used.iter().map(one)))
}
