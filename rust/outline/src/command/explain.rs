//! `explain`: each obligation and claim with its line, the line's rule, and its premises as a tree.

use crate::command::input::{called, Subject};
use crate::command::judge::{judge, JUDGE};
use crate::command::options::Options;
use crate::command::{json, print, words, Done, Status};
use crate::image::{self, Image};
use crate::judged::{is_accepted, judged, Goal};
use crate::text::print::Names;
use crate::text::{report, show};
use reference::checker::rules::OF_PAIR;
use reference::checker::{decode, Verdict};
use std::collections::BTreeSet;
use std::fmt::Write;

pub fn run(args: &[&str]) -> Done {
    let options = Options::read(args, &["--json"])?;
    let file = options.file()?;
    let subject = Subject::of(file)?;
    let verdict = judge(&subject.bytes);
    let said = words::verdict(&verdict, subject.source(), subject.claims());
    let status = if verdict.code == 0 { Status::Accepted } else { Status::Refused };
    let mut all = vec![("file", json::text(called(file)))];
    all.extend(json::verdict(&verdict, &said, subject.source()));
    let Ok(image) = image::read(&subject.bytes) else {
        print(if options.json { json::answer("explain", status, &all) } else { said + "\n" })?;
        return Ok(status);
    };
    let explained = Explained::of(&subject, &image, &verdict)?;
    let mut text = format!("{said}   ({JUDGE})\n{}", explained.text);
    if options.json {
        all.push(("obligations", json::list(explained.obligations)));
        all.push(("claims", json::list(explained.claims)));
        text = json::answer("explain", status, &all);
    }
    print(text)?;
    Ok(status)
}

/// Obligations and claims with their trees, as text and as JSON.
struct Explained {
    text: String,
    obligations: Vec<String>,
    claims: Vec<String>,
}

impl Explained {
    fn of(subject: &Subject, image: &Image, verdict: &Verdict) -> Result<Explained, String> {
        let (names, source) = (subject.names(&image.program), subject.source());
        let decoded = decode(&subject.bytes).map_err(|_| "an image that is read is judged")?;
        let judged = judged(&decoded);
        let accepted = is_accepted(&judged, verdict)?;
        let mut told = BTreeSet::new();
        let (mut text, mut obligations, mut claims) = (String::new(), Vec::new(), Vec::new());
        for (n, judged) in (1..).zip(&judged) {
            let standing = judged.standing(accepted);
            let tree = tree(image, &names, judged.line, &mut told);
            let (place, list) = match &judged.goal {
                Goal::Duty(duty) => (report::duty(&names, source, duty), &mut obligations),
                Goal::Claim(meeting) => (report::claim(&names, source, meeting), &mut claims),
            };
            let _ = write!(text, "\n{n}. {place}: {}\n{tree}", standing.told(judged.line));
            let mut members = json::goal(source, &judged.goal, &place);
            members.push(("standing", json::text(standing.key())));
            members.push(("certificate_line", judged.line.to_string()));
            members.push(("tree", json::text(&tree)));
            list.push(json::object(&members));
        }
        Ok(Explained { text, obligations, claims })
    }
}

/// What a line rests on; nothing for line 0.
pub(crate) fn tree(image: &Image, names: &Names, line: u16, told: &mut BTreeSet<u16>) -> String {
    let mut text = String::new();
    if line > 0 {
        branch(image, names, line, 1, told, &mut text);
    }
    text
}

/// A line and, the first time that it is met, what it rests on.
fn branch(
    image: &Image,
    names: &Names,
    number: u16,
    depth: usize,
    told: &mut BTreeSet<u16>,
    out: &mut String,
) {
    let line = &image.written.lines[usize::from(number) - 1];
    let (left, right) = (image.formula(line.left), image.formula(line.right));
    let (left, right) = (names.formula(left), names.formula(right));
    let again = !told.insert(number) && !line.premises.is_empty();
    let above = if again { "   (its premises: above)" } else { "" };
    let says = show::arrow(line.rule);
    let half = image.program.is_pair((line.thread, line.point)) && line.rule != OF_PAIR;
    let of = if half { " of the first half" } else { "" };
    let (pad, rule) = ("  ".repeat(depth), line.rule);
    let _ = writeln!(out, "{pad}line {number}, rule {rule}{of}: {left} {says} {right}{above}");
    if !again {
        for premise in &line.premises {
            branch(image, names, *premise, depth + 1, told, out);
        }
    }
}
