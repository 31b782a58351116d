//! Pieces that several sections are made of.

use super::words::Words;
use crate::judged::Standing;
use crate::markup::{el, of, Element};
use crate::text::print::Names;

/// A section with its heading; its name is what links go to.
pub fn section(id: &'static str, title: &str) -> Element {
    let title = el("h2").with("id", format!("{id}-title")).text(title);
    el("section").with("id", id).with("aria-labelledby", format!("{id}-title")).child(title)
}

pub fn code(text: &str) -> Element {
    el("code").text(text)
}

pub fn note(text: &str) -> Element {
    of("p", "note").text(text)
}

/// What a click on a summary opens stands beside it and not in it, so that paper shows it, opened or not.
pub fn opened(summary: Element, inner: Element) -> [Element; 2] {
    let details = of("details", "opener").child(el("summary").child(summary));
    [details, of("div", "opened").child(inner)]
}

/// The name under which a point stands on the page.
pub fn point_id(thread: u8, point: u8) -> String {
    format!("point-{thread}-{point}")
}

/// `reader at point 0`, as a link to the point.
pub fn point(names: &Names, thread: u8, point: u8) -> Element {
    let link = el("a").with("href", format!("#{}", point_id(thread, point)));
    link.text(names.at(thread, point))
}

/// The name under which a `let` stands on the page.
pub fn let_id(number: usize) -> String {
    format!("let-{number}")
}

/// A formula whose `let` names lead to what they stand for.
pub fn formula(words: &Words, text: &str) -> Element {
    let mut out = of("code", "formula");
    let mut rest = text;
    while let Some(first) = rest.chars().next() {
        let of_name = |c: char| c.is_ascii_alphanumeric() || c == '_' || c == '\'';
        let same = |c: char| of_name(c) == of_name(first);
        let end = rest.find(|c| !same(c)).unwrap_or(rest.len());
        let (piece, behind) = rest.split_at(end);
        out = match words.lets.iter().position(|(name, _)| name == piece) {
            Some(n) => out.child(let_link(words, n)),
            None => out.text(piece),
        };
        rest = behind;
    }
    out
}

fn let_link(words: &Words, number: usize) -> Element {
    let (name, formula) = &words.lets[number];
    let link = of("a", "let").with("href", format!("#{}", let_id(number)));
    link.with("title", formula).text(name)
}

/// What stands in front of whatever is no result, since the whole image is refused.
pub const REFUSED: &str = "The image is refused:";

/// What is said of an obligation or a claim, and its class on the page.
pub fn answer(standing: Standing) -> (&'static str, &'static str) {
    match standing {
        Standing::Met => ("answer met", "met"),
        Standing::LineThere => ("answer there", "its line is there"),
        Standing::NoLine => ("answer open", "no line"),
        Standing::OtherLine => ("answer open", "other line"),
        Standing::Unjustified => ("answer open", "unjustified"),
        Standing::NotShown => ("answer open", "not shown"),
    }
}

/// Numbers with a comma at each thousand.
pub fn grouped(number: usize) -> String {
    let digits = number.to_string();
    let mut out = String::new();
    for (at, digit) in digits.chars().enumerate() {
        if at > 0 && (digits.len() - at).is_multiple_of(3) {
            out.push(',');
        }
        out.push(digit);
    }
    out
}

#[cfg(test)]
mod tests {
    use super::*;

    #[test]
    fn let_names_become_links_and_nothing_else_does() {
        let lets = vec![("Low".to_string(), "x < 2 & \"y\"".to_string())];
        let words = Words { names: Names::default(), assertions: Vec::new(), lets };
        let written = formula(&words, "Low and Lower <b>").written();
        let link =
            "<a class=\"let\" href=\"#let-0\" title=\"x &lt; 2 &amp; &quot;y&quot;\">Low</a>";
        assert_eq!(written, format!("<code class=\"formula\">{link} and Lower &lt;b&gt;</code>"));
    }

    #[test]
    fn thousands_are_grouped() {
        assert_eq!([7, 65535, 1000000].map(grouped), ["7", "65,535", "1,000,000"]);
    }
}
