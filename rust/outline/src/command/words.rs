//! Verdicts in words.

use crate::image::fault;
use crate::judged::Standing;
use crate::text::counted;
use crate::text::report;
use crate::text::source::Source;
use reference::checker::Verdict;

/// One line: ACCEPTED, or REFUSED with the code and what it is about.
pub fn verdict(v: &Verdict, source: Option<&Source>, claims: usize) -> String {
    match v.code {
        0 => accepted(v.count.into(), claims),
        20..=22 => {
            let lacks = lacks(v);
            format!("REFUSED: class {}, {}: {lacks} (code {})", v.class, place(v, source), v.code)
        }
        26 => {
            let lacks = lacks(v);
            let one = point(v.thread, v.point, source);
            let other = point(v.other_thread, v.other_point, source);
            format!("REFUSED: claim, never {one} and {other}: {lacks} (code 26)")
        }
        code => format!("REFUSED: record {}: {} (code {code})", v.record, fault(code)),
    }
}

/// What the obligation or claim lacks that the verdict names.
fn lacks(v: &Verdict) -> String {
    Standing::of(v.code, v.line, false).told(v.line)
}

fn accepted(obligations: usize, claims: usize) -> String {
    let met = format!("ACCEPTED: {} met", counted(obligations, "obligation"));
    match claims {
        0 => met,
        n => format!("{met}, {} shown", counted(n, "claim")),
    }
}

fn place(v: &Verdict, source: Option<&Source>) -> String {
    let own = point(v.thread, v.point, source);
    if v.class == 4 {
        return format!("{own} under {}", point(v.other_thread, v.other_point, source));
    }
    own
}

/// A point, with its names and source line where there is a source.
fn point(thread: u16, point: u16, source: Option<&Source>) -> String {
    match source {
        Some(source) => report::point(&source.names, Some(source), thread as u8, point as u8),
        None => format!("thread {thread} point {point}"),
    }
}
