//! `docs/LITMUS.md` and `docs/FROM-C.md`: every command of these pages is run, and what it tells is what stands there.

mod program;

use program::Folder;
use std::path::Path;
use std::process::Command;

/// A block of a page: what stands behind its fence, and its lines.
struct Block {
    fence: String,
    lines: Vec<String>,
}

fn blocks(page: &str) -> Vec<Block> {
    let mut found = Vec::new();
    let mut lines = page.lines();
    while let Some(line) = lines.next() {
        let Some(fence) = line.strip_prefix("```") else { continue };
        let inner = lines.by_ref().take_while(|line| *line != "```").map(String::from).collect();
        found.push(Block { fence: fence.into(), lines: inner });
    }
    found
}

/// The words of a command; those in quotes are one.
fn words(line: &str) -> Vec<String> {
    let parts = line.split('"').enumerate();
    let each = parts.flat_map(|(n, part)| match n % 2 {
        0 => part.split_whitespace().map(String::from).collect::<Vec<String>>(),
        _ => vec![part.to_string()],
    });
    each.collect()
}

/// What a command tells, its mistakes behind its answers.
fn told(folder: &Folder, line: &str) -> Vec<String> {
    let words = words(line);
    let program = match words[0].as_str() {
        "outline" => env!("CARGO_BIN_EXE_outline"),
        "cat" => "cat",
        other => panic!("{other} is run on no page"),
    };
    let output =
        Command::new(program).args(&words[1..]).current_dir(&folder.0).output().expect("run");
    let text = [output.stdout, output.stderr].concat();
    let text =
        String::from_utf8(text).expect("text").replace("proved checker", "independent checker");
    text.trim_end().lines().map(String::from).collect()
}

/// Do the lines fit, where `...` stands for any number of them?
fn fits(want: &[String], found: &[String]) -> bool {
    match want.split_first() {
        None => found.is_empty(),
        Some((first, rest)) if first == "..." => (0..=found.len()).any(|n| fits(rest, &found[n..])),
        Some((first, rest)) => found.first() == Some(first) && fits(rest, &found[1..]),
    }
}

/// The commands of a block, each with what is told below it.
fn commands(block: &Block) -> Vec<(String, Vec<String>)> {
    let mut all: Vec<(String, Vec<String>)> = Vec::new();
    for line in &block.lines {
        match (line.strip_prefix("$ "), all.last_mut()) {
            (Some(command), _) => all.push((command.into(), vec![])),
            (None, Some((_, told))) => told.push(line.clone()),
            (None, None) => panic!("nothing is run above: {line}"),
        }
    }
    all
}

/// Runs a page, and says how many commands it has.
fn run_page(name: &str) -> usize {
    let path = Path::new(env!("CARGO_MANIFEST_DIR")).join("../../docs").join(name);
    let page = std::fs::read_to_string(path).expect("the page is there");
    let folder = Folder::new(&format!("chapter-{name}"));
    let mut count = 0;
    for block in blocks(&page) {
        if let Some((_, file)) = block.fence.split_once(' ') {
            folder.with(file, &(block.lines.join("\n") + "\n"));
            continue;
        }
        assert_eq!(block.fence, "console", "a block is a file or commands");
        for (command, want) in commands(&block) {
            let found = told(&folder, &command);
            assert!(fits(&want, &found), "{name}: $ {command}\n{}", found.join("\n"));
            count += 1;
        }
    }
    count
}

#[test]
fn the_page_about_litmus_tests_is_what_the_tool_says() {
    assert_eq!(run_page("LITMUS.md"), 9);
}

#[test]
fn the_page_about_c_is_what_the_tool_says() {
    assert_eq!(run_page("FROM-C.md"), 9);
}
