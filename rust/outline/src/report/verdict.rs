//! The verdict in one sentence, and what a contract quotes: the record's bytes and the image's digest.

use super::parts::{self, code};
use super::{origin, refusal, Content, Subject};
use crate::image::fault;
use crate::judged::{Goal, Judged};
use crate::markup::{el, of, Element};
use crate::text::contract::{assertions, claim};

/// The fields of the record, in order.
const FIELDS: [&str; 9] =
    ["code", "record", "class", "thread", "point", "other thread", "other point", "line", "count"];

pub fn section(subject: &Subject) -> Element {
    parts::section("verdict", "Verdict")
        .child(banner(subject))
        .child(facts(subject))
        .child(fields(subject))
}

fn banner(subject: &Subject) -> Element {
    let (class, word) = match subject.is_accepted() {
        true => ("verdict accepted", "Accepted"),
        false => ("verdict refused", "Refused"),
    };
    let said = of("p", "sentence").child(of("strong", "word").text(word)).text(" ");
    of("div", class).child(said.text(sentence(subject)))
}

/// What a contract quotes.
fn facts(subject: &Subject) -> Element {
    let record: Vec<String> = subject.verdict.record().iter().map(|b| format!("{b:02x}")).collect();
    let record = code(&record.join(" ")).with("id", "record");
    let record = [el("dt").text("Record"), el("dd").child(record)];
    of("dl", "facts").all([record].into_iter().chain(origin::facts(subject)).flatten())
}

/// The nine numbers with their names.
fn fields(subject: &Subject) -> Element {
    let values = subject.verdict.fields();
    let cell = |(name, value): (&str, &u16)| {
        of("div", "field").child(el("dt").text(name)).child(el("dd").text(value))
    };
    of("dl", "fields").all(FIELDS.into_iter().zip(&values).map(cell))
}

/// What the verdict says, for someone who reads nothing else.
fn sentence(subject: &Subject) -> String {
    let verdict = &subject.verdict;
    match (&subject.content, verdict.code) {
        (content, 0) => {
            let claims = content.as_ref().map_or(String::new(), claimed);
            format!("{}{claims} {1} of {1} obligations are met.", assertions(), verdict.count)
        }
        (Some(content), _) => refusal::sentence(content),
        (None, code) => {
            format!("The bytes are no image: record {}: {}.", verdict.record, fault(code))
        }
    }
}

/// The claims of an accepted image, in the sentence.
fn claimed(content: &Content) -> String {
    let claim = |judged: &Judged| match &judged.goal {
        Goal::Claim(meeting) => Some(format!(" {}", claim(&content.words.names, meeting))),
        Goal::Duty(_) => None,
    };
    content.judged.iter().filter_map(claim).collect()
}
