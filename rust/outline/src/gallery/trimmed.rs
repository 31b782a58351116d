//! The table of trimmed images: every line that the search found, and what trimming leaves of it.

use super::Example;
use crate::build::build_with;
use crate::command::trim::Size;
use crate::image::to_bytes;
use crate::search::budget::TRIES;
use crate::search::kept::Kept;
use reference::checker::{check, Verdict};
use reference::trim::trimmed;
use std::fmt::Write;

const HEAD: &str = "\
## Trimmed

`outline build --all-lines` keeps the lines that the search found and did not need, as far as an image holds them (500 formulas);
`outline trim` takes them out. What is left has the size of what `outline build` writes, is accepted with the same count, and
trimmed again it is the same.

| Program | Bytes | Lines | Formulas | Bytes left | Lines left | Formulas left | Judged again |
|---|---|---|---|---|---|---|---|
";

pub fn table(proved: &[&Example]) -> Result<String, String> {
    let mut text = String::from(HEAD);
    for example in proved {
        let (before, after, verdict) =
            row(example).map_err(|fault| format!("{}: {fault}", example.name))?;
        let size = |s: &Size| format!("{} | {} | {}", s.bytes, s.lines, s.formulas);
        let _ = writeln!(
            text,
            "| `{}` | {} | {} | {verdict} |",
            example.name,
            size(&before),
            size(&after)
        );
    }
    Ok(text)
}

/// How much the image has with dead lines and without them, and the verdict on what is left.
fn row(example: &Example) -> Result<(Size, Size, Verdict), String> {
    let built = build_with(&example.source, Kept::All, TRIES, &|_, _| true);
    let before = to_bytes(&built.map_err(|mistake| mistake.to_string())?.image)?;
    let after = trimmed(&before).ok_or("not accepted")?;
    let verdict = check(&after);
    if verdict != check(&before) || trimmed(&after).as_ref() != Some(&after) {
        return Err("trimming changed more than it may".into());
    }
    if Size::of(&after) != Size::of(&to_bytes(&example.built.image)?) {
        return Err("what is left is not as large as the image that is built".into());
    }
    Ok((Size::of(&before), Size::of(&after), verdict))
}
