//! Sources in the manual, and what the tool says about them.

use crate::blocks::{blocks, of_kind, Block};
use outline::build::build;
use outline::text::parse_source::parse;
use outline::text::source::Source;
use reference::explore::truth::is_true;
use reference::explore::{explore, reachable, Bounds, Outcome};
use reference::image::Statement;
use std::process::Command;

/// What the program prints about a source, both outputs.
fn said(folder: &std::path::Path, name: &str, further: bool) -> String {
    let (text, image) = (format!("{name}.outline"), format!("{name}.image"));
    let more = if further { ["--further"].as_slice() } else { &["-o", &image] };
    let output = Command::new(env!("CARGO_BIN_EXE_outline"))
        .current_dir(folder)
        .args(["build", &text])
        .args(more)
        .output()
        .expect("the tool runs");
    let all = [output.stdout, output.stderr].concat();
    String::from_utf8(all).expect("text")
}

/// Every `says` block is the tool's output, or a part of it, on the source of the same name that stands before it; every
/// `further` block that with further rules.
#[test]
fn the_tool_says_what_is_quoted() {
    let folder = std::env::temp_dir().join(format!("manual-test-{}", std::process::id()));
    std::fs::create_dir_all(&folder).expect("a place for files");
    let mut quoted = 0;
    for block in blocks() {
        if block.is("page") || block.is("beyond") {
            let path = folder.join(format!("{}.outline", block.name()));
            std::fs::write(path, &block.text).expect("written");
        } else if block.is("says") || block.is("further") {
            let output = said(&folder, block.name(), block.is("further"));
            match block.marks.get(2).map(String::as_str) {
                Some("part") => assert!(output.contains(&block.text), "line {}", block.line),
                _ => assert_eq!(output, block.text, "block at line {}", block.line),
            }
            quoted += 1;
        }
    }
    std::fs::remove_dir_all(&folder).expect("cleared away");
    assert!(quoted > 4, "the way to an outline is missing");
}

/// The last page is the outline that is found, and it closes.
#[test]
fn the_last_page_is_accepted() {
    let pages = of_kind("page");
    let last = parse(&pages.last().expect("a page").text).expect("well formed");
    assert!(build(&last).expect("no hints").open.is_empty());
}

fn source(block: &Block) -> Source {
    parse(&block.text).unwrap_or_else(|e| panic!("block at line {}: {e}", block.line))
}

/// Whether the implications that the source names are true in every reachable state.
fn facts_are_true(source: &Source, bounds: Bounds) -> bool {
    let program = source.program();
    reachable(&program, bounds).iter().all(|state| {
        source.hints.iter().all(|hint| match &hint.statement {
            Statement::Implication { left, right } => {
                let truth = |a| is_true(a, state, &program.header);
                !truth(left) || truth(right)
            }
            _ => panic!("an implication is wanted"),
        })
    })
}

/// What is beyond the rules is not found, though it is true in all states of its program.
#[test]
fn what_is_beyond_the_rules_is_true() {
    for block in of_kind("beyond") {
        let source = source(&block);
        let found = build(&source).is_ok_and(|built| built.open.is_empty());
        assert!(!found, "block at line {}", block.line);
        let bounds = Bounds { steps: 12, writes: 8, ..Bounds::DEFAULT };
        let outcome = explore(&source.program(), &[], bounds).outcome;
        assert_eq!(outcome, Outcome::Holds { all: true }, "block at line {}", block.line);
        assert!(facts_are_true(&source, bounds), "block at line {}", block.line);
    }
}
