//! The tables of the examples' page are those that the program makes.

use outline::gallery::{page, tables};
use std::path::{Path, PathBuf};

fn folder() -> PathBuf {
    Path::new(env!("CARGO_MANIFEST_DIR")).join("../../examples")
}

#[test]
fn the_page_has_the_tables() {
    let text = std::fs::read_to_string(folder().join("README.md")).expect("the page is there");
    let fresh = page(&text, &folder()).unwrap_or_else(|e| panic!("{e}"));
    let differs = text.lines().zip(fresh.lines()).find(|(old, new)| old != new);
    assert_eq!(differs, None, "write it again: gallery examples --write");
    assert_eq!(text, fresh, "write it again: gallery examples --write");
}

/// Each outline of the folder stands in the tables once, with all that its table has to tell.
#[test]
fn every_outline_has_its_line() {
    let text = tables(&folder()).unwrap_or_else(|e| panic!("{e}"));
    let files = std::fs::read_dir(folder()).expect("the examples are there");
    let names = files.filter_map(|f| {
        let name = f.expect("readable").file_name().to_string_lossy().into_owned();
        name.strip_suffix(".outline").map(String::from)
    });
    for name in names {
        let link = format!("| [`{name}`]({name}.outline) |");
        let lines: Vec<&str> = text.lines().filter(|line| line.starts_with(&link)).collect();
        assert_eq!(lines.len(), 1, "{name}");
        let cells: Vec<&str> = lines[0].trim_matches('|').split(" | ").map(str::trim).collect();
        assert!(cells.iter().all(|cell| !cell.is_empty()), "{name} lacks something: {cells:?}");
        let beyond = tables_of_beyond(&text).contains(&link);
        let wanted = match (name.contains("-wrong-"), beyond) {
            (true, _) => 4,
            (false, true) => 11,
            (false, false) => 9,
        };
        assert_eq!(cells.len(), wanted, "{name}");
    }
}

/// The part about outlines that are beyond the rules.
fn tables_of_beyond(text: &str) -> &str {
    let (_, beyond) = text.split_once("\n## True, and beyond the rules\n").expect("a table");
    beyond.split("\n## ").next().expect("a part")
}

/// Each theorem that the table names stands in the crate of further rules, and each outline of the table has one.
#[test]
fn theorems_are_there() {
    let crate_of = folder().join("../crates/logic_further/proofs");
    let files = std::fs::read_dir(crate_of).expect("proofs");
    let proofs: String = files
        .map(|file| std::fs::read_to_string(file.expect("a file").path()).expect("a proof"))
        .collect();
    let text = std::fs::read_to_string(folder().join("README.md")).expect("the page is there");
    let rows = tables_of_beyond(&text).lines().filter(|line| line.starts_with("| [`"));
    let mut count = 0;
    for row in rows {
        let cell = row.split(" | ").nth(3).expect("a theorem").trim_matches('`');
        for name in cell.split("`, `") {
            assert!(proofs.contains(&format!("\npub {name} :")), "{name}");
            count += 1;
        }
    }
    assert_eq!(count, 6);
}

/// Every accepted outline has its times; what they are differs from run to run.
#[test]
fn accepted_outlines_have_their_times() {
    let text = std::fs::read_to_string(folder().join("README.md")).expect("the page is there");
    let (_, times) = text.split_once("\n## Times\n").expect("the page has the times");
    for name in proved(&text) {
        let row = format!("| `{name}` | ");
        let cells = times
            .lines()
            .find_map(|line| line.strip_prefix(&row))
            .unwrap_or_else(|| panic!("no times of {name}"));
        let numbers = cells.trim_end_matches(" |").split(" | ");
        assert!(numbers.filter_map(|n| n.parse::<f64>().ok()).count() == 2, "{name}: {cells}");
    }
}

/// The names in the first table.
fn proved(text: &str) -> Vec<&str> {
    let (_, first) = text.split_once("<!-- tables: by the program gallery -->").expect("tables");
    let first = first.split("\n## ").next().expect("a part");
    let rows = first.lines().filter_map(|line| line.strip_prefix("| [`"));
    let names: Vec<&str> = rows.filter_map(|row| row.split('`').next()).collect();
    assert!(names.len() > 10);
    names
}
