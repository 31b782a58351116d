//! Programs with a wish in the manual, and what `infer` makes of them.

use crate::blocks::of_kind;
use std::process::Command;

/// Each `inferred` block is what `infer` writes for the `wish` of its name, each `tells` block all that it prints.
#[test]
fn infer_answers_as_is_quoted() {
    let folder = std::env::temp_dir().join(format!("manual-infer-{}", std::process::id()));
    std::fs::create_dir_all(&folder).expect("a place for files");
    let (outlines, told) = (of_kind("inferred"), of_kind("tells"));
    for wish in of_kind("wish") {
        let (asked, answer) = (format!("{}.outline", wish.name()), folder.join("found.outline"));
        std::fs::write(folder.join(&asked), &wish.text).expect("written");
        let output = Command::new(env!("CARGO_BIN_EXE_outline"))
            .current_dir(&folder)
            .args(["infer", &asked, "-o", "found.outline"])
            .output()
            .expect("the tool runs");
        let outline = outlines.iter().find(|block| block.name() == wish.name());
        let words = told.iter().find(|block| block.name() == wish.name());
        assert!(outline.is_some() || words.is_some(), "line {}: no answer is quoted", wish.line);
        if let Some(block) = outline {
            assert_eq!(output.status.code(), Some(0), "line {}", wish.line);
            let found = std::fs::read_to_string(&answer).expect("an outline");
            assert_eq!(found, block.text, "block at line {}", block.line);
        }
        if let Some(block) = words {
            let printed = String::from_utf8(output.stdout).expect("text");
            assert_eq!(printed, block.text, "block at line {}", block.line);
        }
    }
    std::fs::remove_dir_all(&folder).expect("cleared away");
}
