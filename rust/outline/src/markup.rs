//! Elements of HTML and SVG. Whatever comes from a file is escaped here, and only here.

use std::fmt::Write;

/// An element. Its tag and the names of its attributes are words of this program, so that no file can choose them.
#[derive(Debug, Clone)]
pub struct Element {
    tag: &'static str,
    attributes: Vec<(&'static str, String)>,
    inner: Vec<Node>,
}

#[derive(Debug, Clone)]
enum Node {
    Element(Element),
    Text(String),
    /// A style sheet of this program, written as it is.
    Style(&'static str),
}

/// HTML elements that have no end tag.
const VOID: [&str; 3] = ["meta", "br", "hr"];

/// An element without attributes, empty.
pub fn el(tag: &'static str) -> Element {
    Element { tag, attributes: Vec::new(), inner: Vec::new() }
}

/// An element of a class.
pub fn of(tag: &'static str, class: &'static str) -> Element {
    el(tag).with("class", class)
}

impl Element {
    pub fn with(mut self, name: &'static str, value: impl ToString) -> Element {
        self.attributes.push((name, value.to_string()));
        self
    }

    pub fn text(mut self, text: impl ToString) -> Element {
        self.inner.push(Node::Text(text.to_string()));
        self
    }

    pub fn child(mut self, child: Element) -> Element {
        self.inner.push(Node::Element(child));
        self
    }

    pub fn all(mut self, children: impl IntoIterator<Item = Element>) -> Element {
        self.inner.extend(children.into_iter().map(Node::Element));
        self
    }

    pub fn style(mut self, sheet: &'static str) -> Element {
        self.inner.push(Node::Style(sheet));
        self
    }

    /// The element as text, with all that is in it.
    pub fn written(&self) -> String {
        let mut out = String::new();
        self.write(&mut out);
        out
    }

    fn write(&self, out: &mut String) {
        let _ = write!(out, "<{}", self.tag);
        for (name, value) in &self.attributes {
            let _ = write!(out, " {name}=\"{}\"", escaped(value));
        }
        out.push('>');
        if VOID.contains(&self.tag) {
            return;
        }
        for node in &self.inner {
            match node {
                Node::Element(child) => child.write(out),
                Node::Text(text) => *out += &escaped(text),
                Node::Style(sheet) => *out += sheet,
            }
        }
        let _ = write!(out, "</{}>", self.tag);
    }
}

/// Text between tags or in an attribute. Characters that cannot be shown, or that turn the direction of what follows,
/// become the replacement character: they could make a page say what its file does not.
fn escaped(text: &str) -> String {
    let mut out = String::with_capacity(text.len());
    for c in text.chars() {
        match c {
            '&' => out += "&amp;",
            '<' => out += "&lt;",
            '>' => out += "&gt;",
            '"' => out += "&quot;",
            '\'' => out += "&#39;",
            '\n' | '\t' => out.push(c),
            c if c.is_control() || turns(c) => out.push('\u{fffd}'),
            c => out.push(c),
        }
    }
    out
}

/// Marks of direction, and characters that XML does not have.
fn turns(c: char) -> bool {
    matches!(c, '\u{61c}' | '\u{200e}' | '\u{200f}' | '\u{202a}'..='\u{202e}' | '\u{2066}'..='\u{2069}')
        || matches!(c, '\u{fffe}' | '\u{ffff}')
}

#[cfg(test)]
mod tests {
    use super::*;

    #[test]
    fn text_and_attributes_are_escaped() {
        let bad = "<b onclick='x'>\"&\u{202e}\u{0}";
        let element = el("p").with("title", bad).text(bad);
        let safe = "&lt;b onclick=&#39;x&#39;&gt;&quot;&amp;\u{fffd}\u{fffd}";
        assert_eq!(element.written(), format!("<p title=\"{safe}\">{safe}</p>"));
    }

    #[test]
    fn elements_nest_and_void_ones_have_no_end() {
        let page = of("div", "a").child(el("br")).all([el("i").text(1), el("i")]);
        assert_eq!(page.written(), "<div class=\"a\"><br><i>1</i><i></i></div>");
        assert_eq!(el("style").style("a > b {}").written(), "<style>a > b {}</style>");
    }
}
