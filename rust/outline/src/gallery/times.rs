//! How long search and check take, measured: a table of its own, since no two runs agree on it.

use super::{outlines, variant_of};
use crate::build::build;
use crate::command::judge::{judge, JUDGE};
use crate::image::to_bytes;
use crate::text::parse_source::parse;
use std::fmt::Write;
use std::path::Path;
use std::time::{Duration, Instant};

/// The marks in the page between which the times stand.
const BEGIN: &str = "<!-- times: by the program gallery -->\n\n";
const END: &str = "\n<!-- end of the times -->\n";

/// Each is done so often, and the one in the middle is told.
const ROUNDS: usize = 9;

/// The table of the times of all accepted outlines of a folder.
pub fn measured(folder: &Path) -> Result<String, String> {
    let mut text = format!(
        "## Times\n\nMilliseconds, the middle of {ROUNDS} rounds; judged by the {JUDGE}.\n\n\
         | Program | Search | Check |\n|---|---|---|\n"
    );
    for path in outlines(folder)? {
        let name = path.file_stem().expect("an outline has a name").to_string_lossy();
        if variant_of(&name).is_some() {
            continue;
        }
        let source = std::fs::read_to_string(&path).map_err(|e| format!("{name}: {e}"))?;
        if let Some([search, check]) = times(&source).map_err(|e| format!("{name}: {e}"))? {
            let _ = writeln!(text, "| `{name}` | {search:.1} | {check:.2} |");
        }
    }
    Ok(text)
}

/// Search and check of an outline in milliseconds; none if it is not accepted.
fn times(text: &str) -> Result<Option<[f64; 2]>, String> {
    let source = parse(text).map_err(|e| e.to_string())?;
    let built = build(&source).map_err(|e| e.to_string())?;
    let bytes = to_bytes(&built.image)?;
    if judge(&bytes).code != 0 {
        return Ok(None);
    }
    let search = middle(|| build(&source).is_ok());
    let check = middle(|| judge(&bytes).code == 0);
    Ok(Some([search, check].map(|time| time.as_secs_f64() * 1000.0)))
}

/// The time in the middle of several rounds, each of which must go well.
fn middle(round: impl Fn() -> bool) -> Duration {
    let time = |_| {
        let start = Instant::now();
        assert!(round(), "it went well before");
        start.elapsed()
    };
    let mut all: Vec<Duration> = (0..ROUNDS).map(time).collect();
    all.sort();
    all[ROUNDS / 2]
}

/// The page with its times measured afresh.
pub fn page(text: &str, folder: &Path) -> Result<String, String> {
    let lacks = || "the page lacks the marks of the times".to_string();
    let (front, rest) = text.split_once(BEGIN).ok_or_else(lacks)?;
    // Without its table the page has the end at once.
    let (_, back) = rest.split_once(END.trim_start()).ok_or_else(lacks)?;
    Ok([front, BEGIN, &measured(folder)?, END, back].concat())
}

#[cfg(test)]
mod tests {
    use super::times;

    #[test]
    fn only_what_is_accepted_has_times() {
        let right = times("word x = 0 thread t { true } x := 1 { true }").expect("an outline");
        assert!(right.is_some_and(|[search, check]| search > 0.0 && check > 0.0));
        let open = "word x = 0 thread t { true } x := 1 { t sees [x = 2] }";
        assert_eq!(times(open), Ok(None));
        assert!(times("word").is_err());
    }
}
