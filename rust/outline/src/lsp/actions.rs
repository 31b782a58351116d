//! Edits: the usual layout, and assertions that are found for holes.

use super::document::{Document, INFER_TRIES};
use super::position::Range;
use crate::command::json::{list, object, quoted};
use crate::fmt::formatted;
use crate::infer::{written, Answer, Found};
use crate::text::source::{Point, Source};

fn edit(range: Range, text: &str) -> String {
    object(&[("range", range.json()), ("newText", quoted(text))])
}

/// The edit that brings the text into its usual layout. A text with mistakes stays as it is.
pub fn formatting(document: &Document) -> String {
    match formatted(&document.text) {
        Ok(text) if text == document.text => "[]".into(),
        Ok(text) => list([edit(Range::whole(&document.text), &text)]),
        Err(_) => "[]".into(),
    }
}

/// What `infer` has to say where a hole stands; none if it was stopped.
pub fn actions(
    document: &mut Document,
    range: Range,
    goes_on: &dyn Fn() -> bool,
) -> Option<String> {
    let Some((thread, point)) = hole_at(document, range) else { return Some("[]".into()) };
    let Some(source) = document.source().cloned() else { return Some("[]".into()) };
    document.infer(goes_on).then(|| told(document, &source, (thread, point)))
}

/// The actions for a hole, once its inference has ended.
fn told(document: &Document, source: &Source, (thread, point): (usize, usize)) -> String {
    let reason = match &document.inferred {
        Some(Answer::Found(found)) => {
            return found_actions(document, source, found, (thread, point))
        }
        Some(Answer::False(..)) => {
            "a run breaks what is wished, whatever the holes say".to_string()
        }
        _ => format!("not found within {INFER_TRIES} tries; `outline infer` has more"),
    };
    let disabled = object(&[("reason", quoted(&reason))]);
    let title = quoted("infer: no assertion was found for this hole");
    list([object(&[("title", title), ("kind", quoted("quickfix")), ("disabled", disabled)])])
}

/// The hole that a range touches; thread and point count from 0.
fn hole_at(document: &Document, range: Range) -> Option<(usize, usize)> {
    let (source, lines) = (document.source()?, document.lines());
    let points = source.points.iter().enumerate();
    let mut points =
        points.flat_map(|(t, all)| all.iter().enumerate().map(move |(p, point)| (t, p, point)));
    let touched = |(t, p, point): &(usize, usize, &Point)| {
        let spans = document.places.points.get(*t).and_then(|all| all.get(*p));
        let own = spans.map(|s| Range::of_tokens(&lines, &document.list, s.point.0, s.point.1));
        point.hole && own.is_some_and(|own| own.touches(&range))
    };
    points.find(touched).map(|(t, p, _)| (t, p))
}

fn found_actions(
    document: &Document,
    asked: &Source,
    found: &Found,
    (t, p): (usize, usize),
) -> String {
    let mut all = Vec::new();
    let (lines, span) = (document.lines(), document.places.points[t][p].point);
    let holes = asked.points.iter().flatten().filter(|point| point.hole).count();
    // Only `{ ? }` is replaced by itself: a thread without assertions gets all of its points.
    let brace = (span.0..=span.1).find(|at| document.list[*at].0.shown() == "`{`");
    if let Some(brace) = brace.filter(|_| holes > 1) {
        let assertion = found.source.names.assertion(&found.source.points[t][p].assertion);
        let range = Range::of_tokens(&lines, &document.list, brace, span.1);
        let changes = list([edit(range, &format!("{{ {assertion} }}"))]);
        all.push(action(document, "infer: the assertion of this hole", &changes));
    }
    if let Ok(text) = written(&document.text, asked, &found.source) {
        let changes = list([edit(Range::whole(&document.text), &text)]);
        all.push(action(document, "infer: the assertions of all holes", &changes));
    }
    list(all)
}

fn action(document: &Document, title: &str, edits: &str) -> String {
    let changes = object(&[("changes", format!("{{{}:{edits}}}", quoted(&document.uri)))]);
    object(&[("title", quoted(title)), ("kind", quoted("quickfix")), ("edit", changes)])
}
