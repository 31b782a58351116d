//! The points of an imported program: labels from the lines of the file, assertions from its comments.

use super::Imported;
use crate::c::program::Function;
use crate::c::text::{outline, Said};
use crate::c::{refuse, Read};
use crate::text::parse_source::parse;
use crate::text::print::Names;

/// The outline of a C file, which a first line tells of.
pub fn written(imported: &Imported, first: &str) -> Read<String> {
    let names = imported.whole.names();
    let said: Vec<Vec<Said>> = imported.whole.functions.iter().map(points).collect();
    let text = with_notes(imported, &names, &said);
    match parse(&text) {
        Ok(_) => Ok(format!("{first}{text}")),
        Err(mistake) => blamed(imported, &names, &said, &mistake.text),
    }
}

/// The outline with `let` before its threads and `never` behind them.
fn with_notes(imported: &Imported, names: &Names, said: &[Vec<Said>]) -> String {
    let text = outline(&imported.whole, names, imported.fits.range, said);
    let (lets, claims): (Vec<&String>, Vec<&String>) =
        imported.notes.iter().partition(|note| note.starts_with("let "));
    let list = |all: Vec<&String>| all.iter().map(|note| format!("\n{note}\n")).collect::<String>();
    let (words, threads) = text.split_once("\nthread").unwrap_or((&text, ""));
    format!("{words}{}\nthread{threads}{}", list(lets), list(claims))
}

/// Each point with a label from its line, and its assertion, which may be open.
fn points(function: &Function) -> Vec<Said> {
    let code = &function.code;
    let lines = code.placed.iter().map(|placed| placed.at.place.line).chain([code.end.place.line]);
    let mut labels: Vec<String> = Vec::new();
    for line in lines {
        let count = labels
            .iter()
            .filter(|label| label.split('_').next() == Some(&format!("L{line}")))
            .count();
        labels.push(if count == 0 { format!("L{line}") } else { format!("L{line}_{}", count + 1) });
    }
    let said = |(point, label): (usize, String)| {
        let note = code.notes.iter().find(|note| note.point == point);
        let assertion = note.map_or("?".into(), |note| bare(&note.text));
        Said { label: Some(label), assertion }
    };
    labels.into_iter().enumerate().map(said).collect()
}

/// An assertion without its braces.
fn bare(text: &str) -> String {
    let inner = text.trim().strip_prefix('{').and_then(|rest| rest.strip_suffix('}'));
    inner.unwrap_or(text).trim().to_string()
}

/// The first assertion that cannot be read by itself, at its place in the file.
fn blamed(imported: &Imported, names: &Names, said: &[Vec<Said>], whole: &str) -> Read<String> {
    let holes: Vec<Vec<Said>> = said
        .iter()
        .map(|all| all.iter().map(|one| Said { assertion: "?".into(), ..one.clone() }).collect())
        .collect();
    for (thread, function) in imported.whole.functions.iter().enumerate() {
        for note in &function.code.notes {
            let mut one = holes.clone();
            one[thread][note.point] = said[thread][note.point].clone();
            if let Err(mistake) = parse(&with_notes(imported, names, &one)) {
                return refuse(note.at, mistake.text);
            }
        }
    }
    refuse(
        imported.whole.functions[0].at,
        format!("the outline of this file cannot be read: {whole}"),
    )
}
