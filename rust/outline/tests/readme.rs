//! What `README.md` shows is what the tool prints, its figures are counted, it is one page; no document has long lines.

use std::collections::{BTreeMap, BTreeSet};
use std::path::{Path, PathBuf};
use std::process::Command;

/// README's lines and their characters; the characters of a line of other documents.
const LINES: usize = 120;
const CHARACTERS: usize = 120;
const OTHERS: usize = 140;

fn root() -> PathBuf {
    Path::new(env!("CARGO_MANIFEST_DIR")).join("../..")
}

fn text(path: &Path) -> String {
    std::fs::read_to_string(path).unwrap_or_else(|e| panic!("{}: {e}", path.display()))
}

fn too_long(path: &Path, most: usize) -> Vec<usize> {
    let page = text(path);
    let long = |(_, line): &(usize, &str)| line.chars().count() > most;
    (1..).zip(page.lines()).filter(long).map(|(number, _)| number).collect()
}

#[test]
fn the_readme_is_one_page() {
    let path = root().join("README.md");
    assert!(text(&path).lines().count() <= LINES);
    assert_eq!(too_long(&path, CHARACTERS), []);
}

/// The notes of landings and of the port are left out: they tell what was then, with older text beside the new.
#[test]
fn no_document_has_long_lines() {
    let folder = std::fs::read_dir(root().join("docs")).expect("the documents");
    let mut pages: Vec<PathBuf> = folder.map(|entry| entry.expect("a document").path()).collect();
    pages.retain(|path| path.extension().is_some_and(|end| end == "md"));
    pages.retain(|path| !path.ends_with("PORT.md"));
    assert!(pages.len() >= 6, "{pages:?}");
    pages.extend(["CONTRIBUTING.md", "CHANGELOG.md"].map(|name| root().join(name)));
    for path in pages {
        assert_eq!(too_long(&path, OTHERS), [], "{}", path.display());
    }
}

/// The blocks of the page: lines that stand four spaces in, one block to the next empty line.
fn blocks(page: &str) -> Vec<Vec<&str>> {
    let paragraphs = page.split("\n\n").map(|part| part.lines().collect::<Vec<&str>>());
    let shown = paragraphs.filter(|lines| lines.iter().all(|line| line.starts_with("    ")));
    shown.map(|lines| lines.iter().map(|line| &line[4..]).collect()).collect()
}

/// What the tool prints for a command of the page, run in the repository.
fn printed(command: &str) -> String {
    let words: Vec<&str> = command.split_whitespace().skip(1).collect();
    let output = Command::new(env!("CARGO_BIN_EXE_outline"))
        .current_dir(root())
        .args(words)
        .output()
        .expect("the tool runs");
    String::from_utf8([output.stdout, output.stderr].concat()).expect("text")
}

/// Whether a line of the page is a line of the output; ` ..` at its end stands for the rest of it.
fn is_line(shown: &str, line: &str) -> bool {
    shown.strip_suffix(" ..").map_or(shown == line, |front| line.starts_with(front))
}

/// Whether the block is the output; a line `..` stands for any number of lines.
fn is_shortened(block: &[&str], output: &str) -> bool {
    let mut left: Vec<&str> = output.lines().collect();
    let mut gap = false;
    for line in block {
        if *line == ".." {
            gap = true;
            continue;
        }
        match left.iter().position(|printed| is_line(line, printed)) {
            Some(place) if gap || place == 0 => left.drain(..=place),
            _ => return false,
        };
        gap = false;
    }
    gap || left.is_empty()
}

/// A block whose last line is a command of the tool has what it prints in the next block.
#[test]
fn the_tool_prints_what_the_page_shows() {
    let page = text(&root().join("README.md"));
    let blocks = blocks(&page);
    let mut shown = 0;
    for pair in blocks.windows(2) {
        let command = pair[0].last().expect("a line");
        if command.starts_with("target/rust/release/outline ") {
            let output = printed(command);
            assert!(is_shortened(&pair[1], &output), "{command}\n{output}");
            shown += 1;
        }
    }
    assert_eq!(shown, 3, "an accepted outline, a refused one, and the run that breaks it");
}

/// The lines that a row of `docs/BELIEVED.md` counts; a script of the gate holds that page to the definitions.
fn lines_believed(row: &str) -> usize {
    let page = text(&root().join("docs/BELIEVED.md"));
    let row = page.lines().find(|line| line.starts_with(&format!("| {row}:"))).expect("the row");
    row.split('|').nth(3).expect("three columns").trim().parse().expect("a number")
}

/// How many crates stand under one, by `crates.txt`; what the kit has is not counted.
fn crates_under(name: &str) -> usize {
    let list = text(&root().join("crates.txt"));
    let lines = list.lines().filter(|line| !line.starts_with('#'));
    let cited: BTreeMap<&str, Vec<&str>> = lines
        .filter_map(|line| line.split_once(':'))
        .map(|(name, cites)| (name.trim_end_matches(" staticlib"), cites))
        .map(|(name, cites)| (name, cites.split_whitespace().collect()))
        .collect();
    let (mut found, mut left) = (BTreeSet::new(), vec![name]);
    while let Some(next) = left.pop() {
        let new =
            cited[next].iter().filter(|name| cited.contains_key(*name) && found.insert(**name));
        left.extend(new.copied().collect::<Vec<&str>>());
    }
    found.len()
}

/// What is said of how much there is to prove and to believe is counted; two pages say it.
#[test]
fn the_figures_are_counted() {
    for page in ["README.md", "docs/PROOFS.md"] {
        let page = text(&root().join(page));
        for row in ["Demand 3", "Demand 2"] {
            let lines = lines_believed(row);
            assert!(page.contains(&format!("{lines} lines")), "{row}: {lines} lines");
        }
    }
    let under = crates_under("verdict");
    let readme = text(&root().join("README.md"));
    assert!(readme.contains(&format!("the {under} crates under the program")), "{under} crates");
}
