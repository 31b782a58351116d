//! The program: words, names of `let`, and the threads side by side with an assertion at each point.

use super::parts::{self, code, formula, let_id, note, point_id, REFUSED};
use super::words::Words;
use super::Content;
use crate::markup::{el, of, Element};
use reference::image::{Header, Program};

pub fn section(content: &Content) -> Element {
    let (program, words) = (&content.image.program, &content.words);
    let out =
        parts::section("program", "The program and its outline").child(declared(program, words));
    let out = match words.lets.is_empty() {
        true => out,
        false => out.child(lets(words)),
    };
    let said = match content.accepted {
        true => {
            "In every run each assertion is true whenever its thread is at its point.".to_string()
        }
        false => format!("{REFUSED} none of these assertions is a result."),
    };
    let threads = program.thread_numbers().map(|t| thread(program, words, t));
    out.child(note(&said)).child(of("div", "threads").all(threads))
}

/// The words with their start values, and the range.
fn declared(program: &Program, words: &Words) -> Element {
    let header = &program.header;
    let one = |(name, value): (&String, &u8)| format!("{name} = {value}");
    let starts: Vec<String> = words.names.words.iter().zip(&header.start).map(one).collect();
    let range = format!(" Values are 0 to {}.", header.counts.range - 1);
    el("p")
        .text("Shared words at the start: ")
        .child(code(&starts.join(", ")))
        .text(".")
        .text(range)
}

/// What the names of `let` stand for.
fn lets(words: &Words) -> Element {
    let one = |(n, (name, text)): (usize, &(String, String))| {
        let name = el("dt").with("id", let_id(n)).child(code(name));
        [name, el("dd").child(formula(words, text))]
    };
    of("dl", "lets").all(words.lets.iter().enumerate().flat_map(one))
}

fn thread(program: &Program, words: &Words, t: u8) -> Element {
    let index = usize::from(t) - 1;
    let points = (0..program.outline[index].len() as u8).map(|p| point(program, words, t, p));
    let title = el("h3").text(words.names.thread(t));
    let out = of("article", "thread").child(title);
    let out = match registers(&program.header, words, t) {
        Some(list) => out.child(of("p", "registers").text(list)),
        None => out,
    };
    out.child(of("ol", "points").all(points))
}

/// A thread's registers; open ones may hold anything at the start.
fn registers(header: &Header, words: &Words, t: u8) -> Option<String> {
    let own = (1..).zip(&header.owners).filter(|(_, owner)| **owner == t);
    let name = |(r, _): (u8, _)| match header.is_cleared(r) {
        true => format!("{} = 0", words.names.register(r)),
        false => format!("{} open", words.names.register(r)),
    };
    let all: Vec<String> = own.map(name).collect();
    (!all.is_empty()).then(|| format!("registers {}", all.join(", ")))
}

/// A point: its number, its assertion, and the instruction that stands there.
fn point(program: &Program, words: &Words, t: u8, p: u8) -> Element {
    let number = of("span", "number").text(p);
    let assertion = of("div", "assertion").child(formula(words, words.assertion(t, p)));
    let out = el("li").with("id", point_id(t, p)).child(number);
    let out = match words.names.label(t, p) {
        Some(label) => out.child(of("div", "label").text(format!("{label}:"))),
        None => out,
    };
    let out = out.child(assertion);
    match program.instruction(t, p) {
        Some(instruction) => {
            let text = words.names.instruction(t, instruction);
            out.child(of("div", "instruction").child(code(&text)))
        }
        None => out,
    }
}
