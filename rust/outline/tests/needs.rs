//! What `build` finds, and what it says of what it does not find: nothing that is known already, that cannot be, or that
//! does not do alone.

mod program;

use outline::build::build_past_failures;
use outline::search::budget::{BEYOND, SHARE, TRIES};
use outline::text::parse_source::parse;
use program::{fed, Folder};
use reference::checker::check;
use std::path::PathBuf;

fn case(name: &str) -> String {
    let folder = PathBuf::from(env!("CARGO_MANIFEST_DIR")).join("tests/cases");
    std::fs::read_to_string(folder.join(format!("{name}.outline"))).expect("a case")
}

/// What is said of an outline that stays open.
fn said(text: &str) -> String {
    let output = fed(&["build", "-", "-o", "-", "--all"], text.as_bytes());
    assert_eq!(output.status.code(), Some(1), "it stays open");
    String::from_utf8(output.stderr).expect("text")
}

#[test]
fn right_outlines_are_found() {
    for name in ["unfound", "unfound-named", "given-up", "given-up-ten-leaves", "three-tickets"] {
        let source = parse(&case(name)).expect("an outline");
        let built = build_past_failures(&source, TRIES).expect("built");
        assert_eq!((built.open.len(), built.failed.len()), (0, 0), "{name}");
        assert_eq!(check(&built.image.bytes()).code, 0, "{name}");
    }
}

#[test]
fn the_bound_is_for_the_whole() {
    let source = parse(&case("many-open")).expect("an outline");
    let built = build_past_failures(&source, TRIES).expect("built");
    let (goals, named) = (built.image.obligations.len() as u64, source.hints.len() as u64);
    assert!(!built.open.is_empty() && built.open.len() <= 12, "{}", built.open.len());
    assert!(built.tries < (goals + named) * SHARE / 2 + BEYOND, "{}", built.tries);
    let far = built.open.iter().filter(|open| open.given_up > Some(SHARE)).count();
    assert!(far > 0 && far < built.open.len(), "the likeliest have more: {far}");
}

#[test]
fn what_is_given_up_is_not_called_beyond_the_rules() {
    let told = said(&case("many-open"));
    assert!(!told.contains("no rule"), "{told}");
    assert!(told.contains("tries: whether rules lead there is not known"), "{told}");
}

#[test]
fn what_the_case_has_or_excludes_is_not_asked_for() {
    let told = said(&case("would-need"));
    assert!(told.contains("open case    u sees [x = 0], r = 0, r != 1\n"), "{told}");
    assert!(!told.contains("would need") && !told.contains("no rule"), "{told}");
    assert!(
        told.contains("nothing was found that would do and that no state seen breaks"),
        "{told}"
    );
}

/// Message passing whose reader does not say what a flag that is up brings.
const PASSING: &str = "\
word data = 0
word flag = 0

thread writer
  { writer sees one data and writer sees one flag and reader sees [flag = 0] }
    data := 1
  { writer sees [data = 1] and writer sees one flag and reader sees [flag = 0] }
    flag :=rel 1
  { true }

thread reader
  registers a
  { true }
    a <-acq flag
  { a = 1 => reader sees [data = 1] }
";

#[test]
fn what_would_do_is_asked_for_and_does() {
    let told = said(PASSING);
    let needs: Vec<&str> = told
        .lines()
        .filter_map(|line| {
            line.trim_start().strip_prefix("would need ").or(line.strip_prefix("    or         "))
        })
        .collect();
    assert!(!needs.is_empty(), "{told}");
    for need in needs {
        let more = PASSING.replace("{ true }\n    a", &format!("{{ {need} }}\n    a"));
        let folder = Folder::new("needs");
        let (file, image) = (folder.with("m.outline", &more), folder.file("m.image"));
        let (_, _, err) = program::run(&["build", &file, "-o", &image, "--all"]);
        assert!(!err.contains("class 2, thread 2"), "{need}: {err}");
    }
}

#[test]
fn an_and_is_not_split() {
    // The store needs what both threads see: neither does alone.
    let text = PASSING
        .replace("writer sees one flag and reader sees [flag = 0] }\n    flag", "true }\n    flag");
    let text = text.replace(
        "{ true }\n    a",
        "{ reader sees [flag != 1] ; [unsync flag] ; [data = 1] }\n    a",
    );
    let told = said(&text);
    assert!(told.contains("would need writer sees one flag and reader sees "), "{told}");
}

/// Two points that have twelve leaves together.
fn leaves() -> String {
    let seen: Vec<String> = (1..=6).map(|n| format!("t sees [w{n} = 0]")).collect();
    let tests: Vec<String> = (1..=6).map(|n| format!("r{n} = 0")).collect();
    let words: String = (1..=6).map(|n| format!("word w{n} = 0\n")).collect();
    format!(
        "{words}thread t\n  registers r1, r2, r3, r4, r5, r6\n  {{ {} }}\n    w1 := 1\n  {{ true }}\n\
         thread u\n  {{ {} }}\n    w2 := 1\n  {{ true }}\n",
        seen.join(" and "),
        tests.join(" and ")
    )
}

#[test]
fn leaves_are_counted_and_named_with_what_brings_them_down() {
    let told = said(&leaves());
    assert!(
        told.contains("tried        nothing: there are 12 leaves, and rule 20 takes 10\n"),
        "{told}"
    );
    for leaf in ["leaves     t sees [w1 = 0]\n", "t sees [w6 = 0]\n", "r6 = 0\n"] {
        assert!(told.contains(leaf), "{leaf}: {told}");
    }
    assert!(told.contains("as one     t sees [w1 = 0] & [w2 = 0] & "), "{told}");
    assert!(told.contains(": then 7 of 10\n"), "{told}");
}

#[test]
fn two_wordings_of_one_test_are_told() {
    let text = leaves().replace("r6 = 0 }", "r6 = 0 and 0 = r1 and r2 < 1 }");
    let told = said(&text);
    assert!(told.contains("nothing: there are 14 leaves"), "{told}");
    assert!(
        told.contains("as one     equal tests that stand here in two wordings: then 12 of 10"),
        "{told}"
    );
}
