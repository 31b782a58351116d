//! The outline that was found, written into the text that asked for it: comments, labels and names stay.

use crate::infer::lets::named;
use crate::terms::*;
use crate::text::lex::{tokens, Place, Token};
use crate::text::parse_source::parse;
use crate::text::print::Names;
use crate::text::source::{Point, Source};
use reference::formula::Formula;

/// A line is not longer than this if it can be helped.
const WIDTH: usize = 100;

/// A part of the text, from one place to another, and what comes there instead.
struct Edit {
    from: usize,
    to: usize,
    by: String,
}

/// The text with the assertions that were found; `asked` is what the text says, `found` the same with all assertions.
pub fn written(text: &str, asked: &Source, found: &Source) -> Result<String, String> {
    let lets = named(asked, found);
    let mut names = found.names.clone();
    names.shorts.extend(lets.iter().map(|(name, a)| (Formula::Assertion(a.clone()), name.clone())));
    let text = &format!("{}\n", text.trim_end());
    let mut edits = lets_before_threads(text, &found.names, &lets)?;
    for (old, new) in asked.points.iter().flatten().zip(found.points.iter().flatten()) {
        edits.extend(edit(text, &names, old, new));
    }
    let out = applied(text, edits);
    match parse(&out) {
        Ok(again) if says_the_same(&again, found) => Ok(out),
        Ok(_) => Err(format!(
            "mistake in this tool: the outline does not come back from its text\n{out}"
        )),
        Err(mistake) => Err(format!("mistake in this tool: the outline cannot be read: {mistake}")),
    }
}

fn says_the_same(one: &Source, other: &Source) -> bool {
    one.threads == other.threads
        && one.labels == other.labels
        && one.program().outline == other.program().outline
        && one.meetings() == other.meetings()
}

/// `let` for what repeats, before the first thread.
fn lets_before_threads(
    text: &str,
    names: &Names,
    lets: &[(String, A)],
) -> Result<Vec<Edit>, String> {
    if lets.is_empty() {
        return Ok(vec![]);
    }
    let all = tokens(text).list;
    let thread = all.iter().find(|(token, _)| *token == Token::Name("thread".into()));
    let place = thread.map(|(_, place)| *place).ok_or("no thread")?;
    let at = offset(text, Place { column: 1, ..place });
    let told = |(name, a): &(String, A)| {
        let head = format!("let {name} = ");
        format!("{head}{}\n", wrapped(names, a, head.len(), 2))
    };
    let by = lets.iter().map(told).collect::<String>() + "\n";
    Ok(vec![Edit { from: at, to: at, by }])
}

/// Where a place is in the text, in bytes.
fn offset(text: &str, place: Place) -> usize {
    let lines = text.split_inclusive('\n');
    let before: usize = lines.clone().take(place.line - 1).map(str::len).sum();
    let line = lines.clone().nth(place.line - 1).unwrap_or("");
    let within =
        line.char_indices().nth(place.column.saturating_sub(1)).map_or(line.len(), |c| c.0);
    before + within
}

fn edit(text: &str, names: &Names, old: &Point, new: &Point) -> Option<Edit> {
    let at = offset(text, old.line);
    let opens = text[at..].starts_with('{');
    if !old.hole && old.assertion == new.assertion {
        return None;
    }
    let indent = text[..at].rsplit('\n').next().unwrap_or("").chars().count();
    match opens {
        true => {
            let inner = if old.hole {
                wrapped(names, &new.assertion, indent + 4, indent + 2)
            } else {
                joined(text, at, names, old, new, indent)
            };
            Some(Edit { from: at, to: closing(text, at) + 1, by: format!("{{ {inner} }}") })
        }
        false => Some(bare(text, at, names, &new.assertion)),
    }
}

/// What was given, as it is written, and what was found joined to it.
fn joined(text: &str, at: usize, names: &Names, old: &Point, new: &Point, indent: usize) -> String {
    let given = text[at + 1..closing(text, at)].trim();
    let more = match new.assertion.as_both() {
        Some((first, more)) if *first == old.assertion => more,
        _ => return wrapped(names, &new.assertion, indent + 4, indent + 2),
    };
    let single = old.assertion.as_sees().is_some() || old.assertion.as_holds().is_some();
    let plain = single && !given.contains("=>") && !given.contains(" or ") && !given.contains('#');
    let comment = if given.contains('#') { "\n" } else { "" };
    let given = if plain { given.to_string() } else { format!("({given}{comment})") };
    let pad = " ".repeat(indent + 2);
    let more = match more.as_either().is_some() && !is_named(names, more) {
        true => format!("({})", names.assertion(more)),
        false => wrapped(names, more, indent + 8, indent + 2),
    };
    format!("{given}\n{pad}and {more}")
}

/// The `}` that ends the point; comments have none.
fn closing(text: &str, from: usize) -> usize {
    let mut comment = false;
    for (n, c) in text[from..].char_indices() {
        match c {
            '#' => comment = true,
            '\n' => comment = false,
            '}' if !comment => return from + n,
            _ => {}
        }
    }
    text.len()
}

/// A point of a thread without assertions: behind its label, or on a line of its own.
fn bare(text: &str, at: usize, names: &Names, a: &A) -> Edit {
    let rest = &text[at..];
    let label = rest.find(|c: char| !(c.is_alphanumeric() || c == '_' || c == '\''));
    let colon = label.filter(|n| rest[*n..].trim_start().starts_with(':') && *n > 0);
    let is_label = colon.is_some_and(|n| !rest[n..].trim_start().starts_with(":="));
    let point = |before: &str| format!("{{ {} }}", wrapped(names, a, before.len() + 4, 4));
    if let (true, Some(n)) = (is_label, colon) {
        let to = at + n + rest[n..].find(':').expect("a colon") + 1;
        let behind = text[to..].split('\n').next().unwrap_or("").split('#').next().unwrap_or("");
        let more = if behind.trim().is_empty() { "" } else { "\n   " };
        return Edit { from: to, to, by: format!(" {}{more}", point(&rest[..n])) };
    }
    let line = text[..at].rfind('\n').map_or(0, |n| n + 1);
    let alone = text[line..at].trim().is_empty();
    let keyword = ["thread", "never", "proof", "let", "word", "register", "open", "range"];
    let ends = rest.is_empty() || keyword.iter().any(|k| rest.starts_with(k));
    if !ends && alone {
        return Edit { from: line, to: line, by: format!("  {}\n", point("  ")) };
    }
    let end = last_code_line(text, at);
    Edit { from: end, to: end, by: format!("  {}\n", point("  ")) }
}

/// Behind the last line before a place that has more than a comment on it.
fn last_code_line(text: &str, at: usize) -> usize {
    let (mut end, mut offset) = (0, 0);
    for line in text[..at].split_inclusive('\n') {
        offset += line.len();
        if !line.split('#').next().unwrap_or("").trim().is_empty() {
            end = offset;
        }
    }
    end
}

/// An assertion in lines that are not too long, broken between its conjuncts or disjuncts.
fn wrapped(names: &Names, a: &A, first: usize, indent: usize) -> String {
    let whole = names.assertion(a);
    let by_name = names.shorts.iter().any(|(f, _)| *f == Formula::Assertion(a.clone()));
    if by_name || first + whole.chars().count() <= WIDTH {
        return whole;
    }
    let pad = format!("\n{}", " ".repeat(indent));
    if let Some((p, q)) = a.as_both() {
        let left = names.assertion(p);
        let left =
            if p.as_either().is_some() && !is_named(names, p) { format!("({left})") } else { left };
        let right = names.assertion(q);
        let right = match q.as_either().is_some() && !is_named(names, q) {
            true => format!("({right})"),
            false => wrapped(names, q, indent + 4, indent),
        };
        return format!("{left}{pad}and {right}");
    }
    if let Some((p, q)) = a.as_either() {
        return format!("{}{pad}or {}", names.assertion(p), wrapped(names, q, indent + 3, indent));
    }
    whole
}

fn is_named(names: &Names, a: &A) -> bool {
    names.shorts.iter().any(|(f, _)| *f == Formula::Assertion(a.clone()))
}

fn applied(text: &str, mut edits: Vec<Edit>) -> String {
    edits.sort_by_key(|edit| edit.from);
    let (mut out, mut at) = (String::new(), 0);
    for edit in edits {
        out += &text[at..edit.from];
        out += &edit.by;
        at = edit.to;
    }
    out + &text[at..]
}
