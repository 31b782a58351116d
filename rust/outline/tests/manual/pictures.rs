//! Pictures of rows and views: what they say is true or false is so, by exact truth.

use crate::blocks::{of_kind, Block};
use outline::text::parse_source::parse;
use outline::text::source::Source;
use reference::explore::truth::is_true;
use reference::machine::{State, View, Write};

/// A picture's lines, by their first word.
fn lines<'a>(block: &'a Block, first: &str) -> Vec<&'a str> {
    let rest = |line: &'a str| line.trim().strip_prefix(first)?.strip_prefix(' ');
    block.text.lines().filter_map(rest).map(str::trim).collect()
}

/// The name at the front, and what follows.
fn named(line: &str) -> (&str, &str) {
    let (name, rest) = line.split_once(' ').expect("a name and more");
    (name, rest.trim())
}

/// A program with the picture's words, threads and registers, and the assertion as its only point.
fn source(block: &Block, assertion: &str) -> Source {
    let mut text = String::new();
    for row in lines(block, "row") {
        text += &format!("word {} = 0\n", named(row).0);
    }
    for (n, view) in lines(block, "view").iter().enumerate() {
        let registers = lines(block, "register");
        let names: Vec<&str> = registers.iter().map(|line| named(line).0).collect();
        let own = if n == 0 && !names.is_empty() {
            format!("registers {}", names.join(", "))
        } else {
            String::new()
        };
        let shown = if n == 0 { assertion } else { "true" };
        text += &format!("thread {} {own} {{ {shown} }}\n", named(view).0);
    }
    parse(&text).unwrap_or_else(|e| panic!("picture at line {}: {e}", block.line))
}

/// `data@1 flag@0`
fn view(source: &Source, text: &str) -> View {
    let mut view = View::default();
    for part in text.split_whitespace() {
        let (word, position) = part.split_once('@').expect("word@position");
        let number = source.names.words.iter().position(|w| w == word).expect("a word") as u8 + 1;
        view = view.moved(number, position.parse().expect("a position"));
    }
    view
}

/// `2 cov`, `1 rel(data@1 flag@1)`
fn write(source: &Source, text: &str) -> Write {
    let (value, marks) = text.split_once(' ').unwrap_or((text, ""));
    let stored = marks.split_once("rel(").map(|(_, rest)| rest.split_once(')').expect("`)`").0);
    Write {
        value: value.parse().expect("a value"),
        releasing: stored.is_some(),
        covered: marks.contains("cov"),
        stored: view(source, stored.unwrap_or("")),
    }
}

fn state(block: &Block, source: &Source) -> State {
    let mut state = State::start(&source.header);
    for (n, row) in lines(block, "row").iter().enumerate() {
        let writes = named(row).1.split("---").map(|text| write(source, text.trim()));
        state.rows[n] = writes.collect();
    }
    for (n, line) in lines(block, "view").iter().enumerate() {
        state.views[n] = view(source, named(line).1);
    }
    for (n, line) in lines(block, "register").iter().enumerate() {
        state.registers[n] = named(line).1.parse().expect("a value");
    }
    state
}

#[test]
fn pictures_say_what_is_so() {
    for block in of_kind("picture") {
        let mut told = 0;
        for (word, so) in [("true", true), ("false", false)] {
            for assertion in lines(&block, word) {
                let source = source(&block, assertion);
                let point = &source.points[0][0].assertion;
                let found = is_true(point, &state(&block, &source), &source.header);
                assert_eq!(found, so, "picture at line {}: {assertion}", block.line);
                told += 1;
            }
        }
        assert!(told > 1, "the picture at line {} says nothing", block.line);
    }
}
