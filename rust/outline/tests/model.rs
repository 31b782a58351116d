//! What `docs/MODEL.md` says of programs is what the tool finds, and it has seen all their states.

mod program;

use program::{example, run, Folder};
use std::collections::{BTreeMap, BTreeSet};
use std::path::Path;

fn page() -> String {
    let path = Path::new(env!("CARGO_MANIFEST_DIR")).join("../../docs/MODEL.md");
    std::fs::read_to_string(path).expect("the page is there")
}

/// The programs of the page by name: the blocks whose fence has `outline` and a name behind it.
fn programs(page: &str) -> BTreeMap<String, String> {
    let mut found = BTreeMap::new();
    let mut lines = page.lines();
    while let Some(line) = lines.next() {
        let Some(fence) = line.strip_prefix("```") else {
            continue;
        };
        let name = fence.strip_prefix("outline ").expect("a program has a name");
        let text: String = lines
            .by_ref()
            .take_while(|line| *line != "```")
            .map(|line| format!("{line}\n"))
            .collect();
        assert!(found.insert(name.to_string(), text).is_none(), "{name} is there twice");
    }
    found
}

/// A row of the page's table: program, outcome, answer.
fn rows(page: &str) -> Vec<[String; 3]> {
    let table =
        page.split_once("| Program | Outcome | Answer |\n|---|---|---|\n").expect("a table").1;
    let rows = table.lines().take_while(|line| line.starts_with('|'));
    let cells = rows.map(|row| {
        let cells =
            row.trim_matches('|').split('|').map(|cell| cell.trim().trim_matches('`').to_string());
        cells.collect::<Vec<String>>().try_into().expect("three cells")
    });
    cells.collect()
}

#[test]
fn every_outcome_of_the_page_is_the_tools() {
    let folder = Folder::new("model");
    let page = page();
    let (programs, rows) = (programs(&page), rows(&page));
    let mut unasked: BTreeSet<&String> = programs.keys().collect();
    assert!(rows.len() >= 12, "{rows:?}");
    for [name, outcome, answer] in rows {
        unasked.remove(&name);
        let file =
            match name.strip_prefix("examples/").and_then(|file| file.strip_suffix(".outline")) {
                Some(stem) => example(stem),
                None => folder.with(&format!("{name}.outline"), &programs[&name]),
            };
        let (status, out, err) = run(&["explore", &file, "--outcome", &outcome]);
        assert_eq!(err, "", "{name}");
        assert!(out.starts_with(&format!("{answer}: {outcome}")), "{name}: {out}");
        match answer.as_str() {
            // Status 0 is for all states alone; the line says so too.
            "never" => assert!(status == 0 && out.contains(", in all "), "{name}: {out}"),
            "happens" => assert_eq!(status, 1, "{name}: {out}"),
            other => panic!("no answer: {other}"),
        }
    }
    assert!(unasked.is_empty(), "no row asks about {unasked:?}");
}

#[test]
fn the_example_of_load_buffering_is_accepted() {
    let (status, out, err) = run(&["check", &example("load-buffering")]);
    assert_eq!((status, err.as_str()), (0, ""), "{out}");
    assert!(out.contains("ACCEPTED"), "{out}");
}
