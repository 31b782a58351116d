//! Why an image is refused: whether the program is wrong or its proof, the run that matters most, drawn, and what has no
//! line.

use super::goals::{goal_element, goal_words, kind, wanted};
use super::parts::{self, note, opened};
use super::{Content, Subject};
use crate::diagnosis::{Broken, Checked, Diagnosis, Finding, Wrong};
use crate::draw::{Ending, Picture};
use crate::judged::Judged;
use crate::markup::{el, of, Element};
use crate::text::answer::{opening, unbroken};
use crate::text::counted;

/// The first that has no line: the one that the verdict names.
fn named(content: &Content) -> Option<&Judged> {
    content.judged.iter().find(|judged| !judged.has_its_line())
}

/// The verdict's sentence: first whether the program is wrong or its proof.
pub fn sentence(content: &Content) -> String {
    let Some(judged) = named(content) else { return String::new() };
    let answer = content.diagnosis.as_ref().map(|diagnosis| answer(content, diagnosis) + " ");
    let goal = goal_words(content, &judged.goal);
    format!("{}It is not shown that {goal}.", answer.unwrap_or_default())
}

/// Whether the program is wrong or its proof, in a sentence.
fn answer(content: &Content, diagnosis: &Diagnosis) -> String {
    let told = content.telling(|told| told.sentence(diagnosis));
    format!("{} {told}.", opening(diagnosis.answer()))
}

pub fn section(subject: &Subject, content: &Content) -> Element {
    let out = parts::section("refusal", "Why it is refused");
    let Some(judged) = named(content) else { return out };
    let out = match &content.diagnosis {
        Some(diagnosis) => diagnosed(content, diagnosis, out),
        None => out,
    };
    let before = counted(subject.verdict.count.into(), "obligation");
    let code =
        format!(" {} (Code {}; {before} before it have their lines.)", lacks(judged), judged.code);
    let title = el("h3").text("What the verdict names");
    let first = el("p").text("Not met: ").child(goal_element(content, &judged.goal)).text(code);
    let out = out.child(title).child(first).child(note(&kind(&judged.goal)));
    let out = out.child(wanted(content, &judged.goal));
    let out = match content.tried.is_empty() {
        true => out,
        false => out.child(tried(content)),
    };
    match &content.diagnosis {
        Some(diagnosis) => {
            out.child(el("h3").text("All that has no line")).child(open(content, diagnosis))
        }
        None => out,
    }
}

/// The answer, and the run that matters most.
fn diagnosed(content: &Content, diagnosis: &Diagnosis, out: Element) -> Element {
    let (front, rest) =
        (opening(diagnosis.answer()), content.telling(|told| told.sentence(diagnosis)));
    let said = el("p").child(of("strong", "false").text(front)).text(format!(" {rest}."));
    match diagnosis.worst() {
        Some(broken) => out.child(figure(content, &broken, said)),
        None => out.child(said),
    }
}

/// What the obligation or claim lacks.
fn lacks(judged: &Judged) -> String {
    let told = judged.standing(false).told(judged.line);
    let (first, rest) = told.split_at(1);
    format!("{}{rest}.", first.to_uppercase())
}

/// The run, drawn.
fn figure(content: &Content, broken: &Broken, said: Element) -> Element {
    let drawing = of("div", "drawing").with("tabindex", 0).with("role", "region");
    let drawing =
        drawing.with("aria-label", "The run, drawn").child(picture(content, broken).svg());
    let goes_on = of("p", "goes-on").text("The drawing goes on to the right: move it sideways.");
    of("figure", "run-figure").child(said).child(goes_on).child(drawing)
}

/// The drawing of a run that breaks something.
pub fn picture<'a>(content: &'a Content, broken: &'a Broken) -> Picture<'a> {
    let (program, names) = (&content.image.program, &content.words.names);
    let ending = match (broken.what, broken.asserting()) {
        (Wrong::Claim(meeting), _) => Ending::Met(names.both(&meeting)),
        (_, thread) => {
            let thread = thread.expect("an assertion is false");
            let point = broken.end(program).points[usize::from(thread) - 1];
            let words = content.words.assertion(thread, point).to_string();
            Ending::False { thread, words }
        }
    };
    Picture { program, names, run: &broken.run, ending }
}

/// What has no line, the worst first, each with what was found out about it.
fn open(content: &Content, diagnosis: &Diagnosis) -> Element {
    let mut goals: Vec<&Checked> = diagnosis.goals.iter().collect();
    goals.sort_by_key(|checked| checked.finding.rank());
    let item = |checked: &&Checked| {
        let (word, said) = found(checked);
        let mark = of("strong", if checked.finding.rank() == 0 { "false" } else { "unproved" });
        el("li")
            .child(goal_element(content, &checked.goal))
            .text(" ")
            .child(mark.text(word))
            .text(said)
    };
    of("ul", "open-goals").all(goals.iter().map(item))
}

/// A word, and what stands behind it.
fn found(checked: &Checked) -> (&'static str, String) {
    let unbroken = unbroken(&checked.reach, "it");
    match &checked.finding {
        Finding::False(run) => {
            ("False:", format!(" a run of {} breaks it.", counted(run.steps.len(), "step")))
        }
        Finding::Unprovable(_) => (
            "Not provable as it stands:",
            format!(" a state that the assertions allow breaks it, though {unbroken}."),
        ),
        Finding::Unknown => ("Not found:", format!(" the search has no line for it; {unbroken}.")),
    }
}

/// What the search for a line says.
fn tried(content: &Content) -> Element {
    let title = el("span").text("What the search for a line says");
    el("div").all(opened(title, of("pre", "tried").text(content.tried.join("\n"))))
}
