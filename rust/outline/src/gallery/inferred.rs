//! The table of inferred outlines: each program of the gallery with its wish alone.

use super::Example;
use crate::infer::{infer, Answer, Wish, TRIES};
use crate::text::parse_source::parse;
use std::fmt::Write;
use std::path::Path;

/// The marks in the page between which the table stands.
const BEGIN: &str = "<!-- inferred: by the program gallery, with --inferred -->\n";
const END: &str = "<!-- end of what is inferred -->\n";

const HEAD: &str = "\
## Inferred

`outline infer infer/NAME.program -o OUTLINE` gets the program and what is wished of it: its claims, or assertions at some points
(`infer/NAME.program`). It finds the assertions at all points, and the checker judges the outline. What is not found is not false:
these programs have the outlines that were written by hand.

| Program | Found | Runs | Tries | Lines | Formulas | Bytes | Lines by hand |
|---|---|---|---|---|---|---|---|
";

/// Is told each program's name, its text and what came of it.
pub type Seen<'s> = &'s mut dyn FnMut(&str, &str, &Answer);

/// Every accepted outline that has a program with a wish.
pub(super) fn table(folder: &Path, proved: &[&Example], seen: Seen) -> Result<String, String> {
    let mut text = String::from(HEAD);
    for example in proved {
        let path = folder.join("infer").join(format!("{}.program", example.name));
        let asked =
            std::fs::read_to_string(&path).map_err(|e| format!("{}: {e}", path.display()))?;
        let source = parse(&asked).map_err(|e| format!("{}: {e}", path.display()))?;
        let answer = infer(&source, &Wish::of(&source, false), TRIES, &|_, _| true);
        seen(&example.name, &asked, &answer);
        let row = row(&answer).ok_or(format!("{}: the wish is false", example.name))?;
        let by_hand = example.built.image.lines.len();
        let _ = writeln!(text, "| `{}` | {row} | {by_hand} |", example.name);
    }
    Ok(text)
}

/// What the table says of an answer; nothing of a wish that is false.
fn row(answer: &Answer) -> Option<String> {
    match answer {
        Answer::Found(found) => {
            let (image, tried) = (&found.built.image, &found.tried);
            let (lines, formulas) = (image.lines.len(), image.formulas.len());
            let size = format!("{lines} | {formulas} | {}", found.bytes.len());
            Some(format!("yes | {} | {} | {size}", tried.runs, tried.tries))
        }
        Answer::NotFound(end) => {
            Some(format!("no | {} | {} | - | - | -", end.tried.runs, end.tried.tries))
        }
        Answer::False(..) => None,
    }
}

/// The page with its table of inferred outlines made afresh.
pub fn page(text: &str, folder: &Path, seen: Seen) -> Result<String, String> {
    let lacks = || "the page lacks the marks of what is inferred".to_string();
    let (front, rest) = text.split_once(BEGIN).ok_or_else(lacks)?;
    let (_, back) = rest.split_once(END).ok_or_else(lacks)?;
    Ok([front, BEGIN, &super::inferred(folder, seen)?, END, back].concat())
}
