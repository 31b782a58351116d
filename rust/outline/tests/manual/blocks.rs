//! The fenced blocks of the manual, with their marks.

use std::path::PathBuf;

/// A fenced block: the words behind its fence, and what stands in it.
pub struct Block {
    pub marks: Vec<String>,
    pub line: usize,
    pub text: String,
}

impl Block {
    pub fn is(&self, kind: &str) -> bool {
        self.marks[0] == kind
    }

    /// The word behind the kind.
    pub fn name(&self) -> &str {
        self.marks.get(1).unwrap_or_else(|| panic!("line {}: a name is missing", self.line))
    }
}

/// Every mark that a block may have.
const KINDS: [&str; 13] = [
    "text", "sh", "program", "fits", "nearly", "picture", "page", "says", "beyond", "further",
    "wish", "inferred", "tells",
];

pub fn manual() -> String {
    let path = PathBuf::from(env!("CARGO_MANIFEST_DIR")).join("../../docs/MANUAL.md");
    std::fs::read_to_string(path).expect("the manual is there")
}

/// All fenced blocks, in order.
pub fn blocks() -> Vec<Block> {
    let text = manual();
    let mut all: Vec<Block> = Vec::new();
    let mut inside = false;
    for (number, line) in (1..).zip(text.lines()) {
        match line.strip_prefix("```") {
            Some(_) if inside => inside = false,
            Some(marks) => {
                let marks: Vec<String> = marks.split_whitespace().map(String::from).collect();
                assert!(!marks.is_empty(), "line {number}: a block without a mark");
                assert!(KINDS.contains(&marks[0].as_str()), "line {number}: {}", marks[0]);
                all.push(Block { marks, line: number, text: String::new() });
                inside = true;
            }
            None if inside => {
                let block = all.last_mut().expect("a block is open");
                block.text += line;
                block.text.push('\n');
            }
            None => {}
        }
    }
    assert!(!inside, "a block has no end");
    all
}

/// The blocks of one kind; there is at least one.
pub fn of_kind(kind: &str) -> Vec<Block> {
    let found: Vec<Block> = blocks().into_iter().filter(|block| block.is(kind)).collect();
    assert!(!found.is_empty(), "no block {kind}");
    found
}
