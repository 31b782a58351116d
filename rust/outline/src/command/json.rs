//! The one form in which all commands answer with `--json`: `schema/outline.json` describes it. It is written and never
//! read.

use crate::command::judge::{INDEPENDENT, JUDGE};
use crate::command::{names, print, Done, Status};
use crate::further::Further;
use crate::judged::Goal;
use crate::text::source::Source;
use reference::checker::obligations::Duty;
use reference::checker::Verdict;

/// The version of the form.
const VERSION: u32 = 1;

/// A member of an object: its name, and its value as JSON.
pub type Member = (&'static str, String);

/// What a command answers about a file, in one line: version, command and status come first.
pub fn answer(command: &str, status: Status, members: &[Member]) -> String {
    let front = [
        ("version", VERSION.to_string()),
        ("command", text(command)),
        ("status", (status as u8).to_string()),
    ];
    object(&[&front[..], members].concat()) + "\n"
}

/// What is answered where a command cannot do its work: why, and the mistakes of a text by their places. The words of
/// the command line have the names of its files.
pub fn trouble(words: &[&str], told: &str) -> String {
    let command = words.first().copied().unwrap_or_default();
    let members = [("error", text(told)), ("mistakes", mistakes(words, told))];
    answer(command, Status::Unusable, &members)
}

/// The mistakes of a message, each of whose lines is `FILE:LINE:COLUMN: TEXT`, or `FILE:LINE: TEXT` of a whole line.
pub fn mistakes(files: &[&str], told: &str) -> String {
    list(told.lines().filter_map(|line| mistake(files, line)))
}

fn mistake(files: &[&str], line: &str) -> Option<String> {
    let of_file = |file: &&str| {
        let called = if *file == "-" { "standard input" } else { file };
        Some((called.to_string(), line.strip_prefix(called)?.strip_prefix(':')?))
    };
    let (file, rest) = files.iter().find_map(of_file)?;
    let (number, rest) = rest.split_once(':')?;
    let number: usize = number.parse().ok()?;
    let (column, said) = match rest.split_once(": ") {
        Some((column, said)) if column.parse::<usize>().is_ok() => (column.to_string(), said),
        _ => ("null".into(), rest.strip_prefix(' ')?),
    };
    Some(object(&[
        ("file", text(&file)),
        ("line", number.to_string()),
        ("column", column),
        ("text", text(said)),
    ]))
}

/// A verdict with its words: fields, judge, class, and the places that it names.
pub fn verdict(v: &Verdict, words: &str, source: Option<&Source>) -> Vec<Member> {
    let own = (v.thread, v.point);
    let other = (v.other_thread, v.other_point);
    let named = [own, other].into_iter().filter(|(thread, _)| *thread > 0);
    let places = named.map(|(thread, point)| place(source, thread as u8, point as u8));
    let class = if v.class > 0 { v.class.to_string() } else { "null".into() };
    vec![
        ("accepted", (v.code == 0).to_string()),
        ("fields", fields(v)),
        ("words", text(words)),
        ("judge", text(JUDGE)),
        ("class", class),
        ("places", list(places)),
    ]
}

/// What both sets of rules say where the published ones refuse: no verdict.
pub fn further(found: &Further) -> String {
    let rules = found.judgement.used.iter().map(u8::to_string);
    object(&[
        ("rules", list(rules)),
        ("met", found.judgement.accepted.to_string()),
        ("words", text(&found.words())),
        ("judge", text(INDEPENDENT)),
    ])
}

/// A point of a thread: numbers, and where there is a source names, and where in it the point stands.
pub fn place(source: Option<&Source>, thread: u8, point: u8) -> String {
    let null = || "null".to_string();
    let name = source.map_or_else(null, |source| text(source.names.thread(thread)));
    let label = source.and_then(|source| source.names.label(thread, point));
    let at = source.map(|s| s.points[usize::from(thread) - 1][usize::from(point)].line);
    object(&[
        ("thread", thread.to_string()),
        ("name", name),
        ("point", point.to_string()),
        ("label", label.map_or_else(null, text)),
        ("line", at.map_or_else(null, |at| at.line.to_string())),
        ("column", at.map_or_else(null, |at| at.column.to_string())),
    ])
}

/// An obligation or a claim: its class, its places, the asserting thread's first, and what it is in words.
pub fn goal(source: Option<&Source>, goal: &Goal, told: &str) -> Vec<Member> {
    let (kind, class, places) = match *goal {
        Goal::Duty(Duty::Start { thread }) => ("obligation", Some(1), vec![(thread, 0)]),
        Goal::Duty(Duty::Next { thread, point }) => ("obligation", Some(2), vec![(thread, point)]),
        Goal::Duty(Duty::Taken { thread, point }) => ("obligation", Some(3), vec![(thread, point)]),
        Goal::Duty(Duty::Kept { thread, point, actor, action }) => {
            ("obligation", Some(4), vec![(thread, point), (actor, action)])
        }
        Goal::Claim(m) => {
            ("claim", None, vec![(m.thread, m.point), (m.other_thread, m.other_point)])
        }
    };
    let places = places.into_iter().map(|(thread, point)| place(source, thread, point));
    vec![
        ("kind", text(kind)),
        ("class", class.map_or("null".into(), |class: u8| class.to_string())),
        ("places", list(places)),
        ("told", text(told)),
    ]
}

/// A message with which a command ends, as JSON on standard output where that was asked for.
pub fn ended(words: &[&str], done: Done) -> Done {
    match done {
        Err(told) if words.contains(&"--json") => {
            print(trouble(words, &told)).map(|()| Status::Unusable)
        }
        done => done,
    }
}

/// A text as JSON, in which names of files may stand.
pub fn text(s: &str) -> String {
    quoted(&names::shown(s))
}

/// A text as JSON, as it is.
pub fn quoted(s: &str) -> String {
    let mut out = String::from("\"");
    for c in s.chars() {
        match c {
            '"' => out += "\\\"",
            '\\' => out += "\\\\",
            '\n' => out += "\\n",
            c if (c as u32) < 32 => out += &format!("\\u{:04x}", c as u32),
            c => out.push(c),
        }
    }
    out.push('"');
    out
}

/// Texts as a list.
pub fn texts<'a>(all: impl IntoIterator<Item = &'a String>) -> String {
    list(all.into_iter().map(|s| text(s)))
}

pub fn list(all: impl IntoIterator<Item = String>) -> String {
    format!("[{}]", all.into_iter().collect::<Vec<String>>().join(","))
}

/// Fields in the order given; values are JSON already.
pub fn object(fields: &[(&str, String)]) -> String {
    let all = fields.iter().map(|(name, value)| format!("{}:{value}", text(name)));
    format!("{{{}}}", all.collect::<Vec<String>>().join(","))
}

/// The nine fields.
pub fn fields(v: &Verdict) -> String {
    list(v.fields().iter().map(u16::to_string))
}

#[cfg(test)]
mod tests {
    use super::*;

    #[test]
    fn mistakes_are_taken_from_the_messages_of_files() {
        let told = "a.outline:3:9: a value is wanted: `y`\n  |    x := y\n  |         ^\na.outline:4: no: this\nb:1:2: c";
        let want = "[{\"file\":\"a.outline\",\"line\":3,\"column\":9,\"text\":\"a value is wanted: `y`\"},\
            {\"file\":\"a.outline\",\"line\":4,\"column\":null,\"text\":\"no: this\"}]";
        assert_eq!(mistakes(&["check", "a.outline"], told), want);
        assert_eq!(mistakes(&["a.outline"], "a.outline: not found"), "[]");
        let input = "[{\"file\":\"standard input\",\"line\":1,\"column\":2,\"text\":\"c\"}]";
        assert_eq!(mistakes(&["-"], "standard input:1:2: c"), input);
    }

    #[test]
    fn texts_are_quoted() {
        assert_eq!(text("a \"b\"\n\\\t"), "\"a \\\"b\\\"\\n\\\\\\u0009\"");
        let all = object(&[("a", "1".into()), ("b", list(["2".to_string(), "3".to_string()]))]);
        assert_eq!(all, "{\"a\":1,\"b\":[2,3]}");
    }
}
