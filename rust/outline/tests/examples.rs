//! Every example builds, is judged as its header says, and comes back the same from `show`.

use outline::text::{parse_source, show};
use outline::{build, image};
use reference::checker::check;
use reference::explore::{explore, Bounds, Outcome};
use std::path::PathBuf;

/// True in every reachable state, but beyond the rules.
const BEYOND: [&str; 5] =
    ["corr2", "corr2-stronger", "peterson-joint", "rrc-two-writers", "ticket-wait"];

/// The sources under `examples`, by name.
fn sources() -> Vec<(String, String)> {
    let folder = PathBuf::from(env!("CARGO_MANIFEST_DIR")).join("../../examples");
    let mut all: Vec<(String, String)> = std::fs::read_dir(folder)
        .expect("the examples are there")
        .map(|e| e.expect("readable").path())
        .filter(|p| p.extension().is_some_and(|e| e == "outline"))
        .map(|p| {
            let name = p.file_stem().expect("named").to_string_lossy().into_owned();
            (name, std::fs::read_to_string(&p).expect("readable"))
        })
        .collect();
    all.sort();
    assert!(all.len() > 20, "the examples are missing");
    all
}

/// The verdict that the header's line `# refused:` foretells.
fn foretold(text: &str) -> Option<Vec<u16>> {
    let line = text.lines().find_map(|l| l.strip_prefix("# refused:"))?;
    Some(line.split_whitespace().map(|n| n.parse().expect("a number")).collect())
}

fn built(name: &str, text: &str) -> build::Built {
    let source = parse_source::parse(text).unwrap_or_else(|e| panic!("{name}: {e}"));
    build::build(&source).unwrap_or_else(|e| panic!("{name}: {e}"))
}

/// The verdict is the one foretold; a source without a foretold one is accepted.
fn judged_as_foretold(name: &str, text: &str, b: &build::Built) {
    let verdict = check(&b.image.bytes());
    match foretold(text) {
        Some(want) => assert_eq!(verdict.fields().to_vec(), want, "{name}"),
        None => assert_eq!((verdict.code, b.open.len()), (0, 0), "{name}"),
    }
}

fn no_formula_twice(name: &str, b: &build::Built) {
    let list = &b.image.formulas;
    for (i, a) in list.iter().enumerate() {
        assert!(!list[..i].contains(a), "{name}: formula {} is there twice", i + 1);
    }
}

fn shown_and_built_again(name: &str, bytes: &[u8]) {
    let read = image::read(bytes).unwrap_or_else(|e| panic!("{name}: {e}"));
    let again = built(name, &show::show(&read)).image;
    assert!(again.bytes() == bytes, "{name} does not come back the same");
}

#[test]
fn every_example_is_as_its_header_says() {
    for (name, text) in sources() {
        let b = built(&name, &text);
        judged_as_foretold(&name, &text, &b);
        no_formula_twice(&name, &b);
        let bytes = image::to_bytes(&b.image).unwrap_or_else(|e| panic!("{name}: {e}"));
        shown_and_built_again(&name, &bytes);
    }
}

#[test]
fn wrong_variants_say_where_they_fail() {
    for (name, text) in sources() {
        let partial = name.contains("-wrong-") || BEYOND.contains(&name.as_str());
        assert_eq!(partial, foretold(&text).is_some(), "{name}");
    }
}

#[test]
fn the_same_text_gives_the_same_bytes() {
    for (name, text) in sources() {
        assert_eq!(built(&name, &text).image, built(&name, &text).image, "{name}");
    }
}

/// Every assertion and claim is true in the states that a few steps reach, but for the wrong variants: there a run breaks one.
#[test]
fn the_machine_agrees() {
    for (name, text) in sources() {
        let source = parse_source::parse(&text).unwrap_or_else(|e| panic!("{name}: {e}"));
        let bounds = Bounds { steps: 10, ..Bounds::DEFAULT };
        let found = explore(&source.program(), &source.meetings(), bounds);
        let breaks = matches!(found.outcome, Outcome::Breaks(_));
        assert_eq!(breaks, name.contains("-wrong-"), "{name}");
    }
}
