//! One page about one image: the verdict, the program with its outline, the obligations, what is proved and what is believed.
//!
//! The page stands alone: no script, nothing from the network. A file's words reach it through `markup` only.

mod claims;
mod goals;
mod obligations;
mod origin;
mod parts;
mod program;
mod quote;
mod refusal;
pub mod rules;
pub mod sha256;
mod trees;
mod trust;
mod verdict;
pub mod words;

use crate::diagnosis::Diagnosis;
use crate::image::Image;
use crate::judged::Judged;
use crate::markup::{el, of, Element};
use crate::text::answer::Telling;
use crate::text::print::Names;
use reference::checker::Verdict;
pub use refusal::picture;
use words::Words;

const STYLE: &str = include_str!("style.css");

/// Nothing but the page's own styles is allowed: a second lock behind the escaping.
const POLICY: &str = "default-src 'none'; style-src 'unsafe-inline'";

/// What a page is about.
pub struct Subject<'a> {
    /// The file's name, without its folder.
    pub file: &'a str,
    /// The comment at the front of an outline: its first paragraph, and what it says is shown.
    pub about: Vec<String>,
    pub bytes: &'a [u8],
    /// What an outline's file holds, and its names; none for an image.
    pub source: Option<Source<'a>>,
    /// The day on which the page is made, as 2026-11-17.
    pub date: &'a str,
    pub verdict: Verdict,
    /// Who judged.
    pub judge: &'a str,
    /// What the image says; none if it is refused for its bytes.
    pub content: Option<Content>,
}

/// The file of an outline.
pub struct Source<'a> {
    pub text: &'a [u8],
    pub names: &'a Names,
}

/// What a well-formed image says, and what was found out about it.
pub struct Content {
    pub image: Image,
    pub words: Words,
    pub judged: Vec<Judged>,
    /// Whether the whole image is accepted. Nothing of it is a result if it is not.
    pub accepted: bool,
    /// For a refusal: whether the program is wrong or its proof.
    pub diagnosis: Option<Diagnosis>,
    /// What the search for a certificate says about the obligation that the verdict names.
    pub tried: Vec<String>,
}

impl Content {
    /// Tells with the page's words for assertions.
    pub fn telling<T>(&self, tell: impl Fn(&Telling) -> T) -> T {
        let assertion = |t: u8, p: u8| self.words.assertion(t, p).to_string();
        let (program, names) = (&self.image.program, &self.words.names);
        tell(&Telling { program, names, assertion: &assertion })
    }
}

impl Subject<'_> {
    pub fn is_accepted(&self) -> bool {
        self.verdict.code == 0
    }
}

/// The page as text.
pub fn page(subject: &Subject) -> String {
    let (mut links, mut sections) = (vec![("verdict", "Verdict")], vec![verdict::section(subject)]);
    if let Some(content) = &subject.content {
        links.push(("quote", "What may be quoted"));
        sections.push(quote::section(subject, content));
        if !subject.is_accepted() {
            links.push(("refusal", "Why refused"));
            sections.push(refusal::section(subject, content));
        }
        links.extend([
            ("program", "Program"),
            ("claims", "Claims"),
            ("obligations", "Obligations"),
        ]);
        sections.push(program::section(content));
        sections.push(claims::section(content));
        sections.push(obligations::section(content));
    }
    links.push(("trust", "What is proved"));
    sections.push(trust::section(subject.judge));
    let main = el("main").child(heading(subject)).child(contents(&links)).all(sections);
    let html = el("html").with("lang", "en").child(head(subject)).child(el("body").child(main));
    format!("<!DOCTYPE html>\n{}\n", html.written())
}

fn head(subject: &Subject) -> Element {
    let meta = |name: &'static str, content: &'static str| {
        el("meta").with("name", name).with("content", content)
    };
    let word = if subject.is_accepted() { "accepted" } else { "refused" };
    el("head")
        .child(el("meta").with("charset", "utf-8"))
        .child(el("meta").with("http-equiv", "Content-Security-Policy").with("content", POLICY))
        .child(meta("viewport", "width=device-width, initial-scale=1"))
        .child(meta("color-scheme", "light dark"))
        .child(el("title").text(format!("{}: {word}", subject.file)))
        .child(el("style").style(STYLE))
}

/// The file, and what its author says of it.
fn heading(subject: &Subject) -> Element {
    let top = el("header").child(of("p", "kind").text("Report on a proof outline"));
    let top = top.child(el("h1").text(subject.file));
    let said = subject.about.iter().map(|text| of("p", "about").text(text));
    let mark = of("p", "note").text("In the author’s words, from the file’s comment; not checked.");
    match subject.about.is_empty() {
        true => top,
        false => top.all(said).child(mark),
    }
}

fn contents(links: &[(&'static str, &'static str)]) -> Element {
    let link = |(id, text): &(&str, &str)| {
        el("li").child(el("a").with("href", format!("#{id}")).text(text))
    };
    el("nav").with("aria-label", "On this page").child(el("ul").all(links.iter().map(link)))
}
