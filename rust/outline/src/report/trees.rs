//! Lines with what they rest on, down to the last premise.

use super::parts::code;
use super::{rules, Content};
use crate::markup::{el, of, Element};
use crate::text::show::arrow;
use std::collections::BTreeSet;

/// So many lines are told on a page; an image can share its lines among very many obligations.
const MOST_LINES: usize = 20_000;

/// Tells lines with what they rest on.
pub struct Trees<'a> {
    pub content: &'a Content,
    /// Each formula of the image as text.
    formulas: Vec<String>,
    /// So many lines may still be told.
    left: usize,
}

impl<'a> Trees<'a> {
    pub fn of(content: &'a Content) -> Trees<'a> {
        let names = &content.words.names;
        let formulas = content.image.formulas.iter().map(|f| names.formula(f)).collect();
        Trees { content, formulas, left: MOST_LINES }
    }

    /// The lines below one, each once, indented by their depth. Not nested: an image may be deeper than any browser nests.
    pub fn tree(&mut self, root: u16) -> Element {
        let mut out = of("ol", "tree");
        let (mut told, mut stack) = (BTreeSet::new(), vec![(root, 0)]);
        while let Some((number, depth)) = stack.pop() {
            if self.left == 0 {
                let more = "More lines than a page holds: outline explain tells them all.";
                return out.child(of("li", "more").text(more));
            }
            self.left -= 1;
            let again = !told.insert(number);
            out = out.child(self.line(number, depth, again));
            if !again {
                let premises = &self.content.image.written.lines[usize::from(number) - 1].premises;
                stack.extend(premises.iter().rev().map(|premise| (*premise, depth + 1)));
            }
        }
        out
    }

    fn line(&self, number: u16, depth: usize, again: bool) -> Element {
        let line = &self.content.image.written.lines[usize::from(number) - 1];
        let title = rules::title(line.rule);
        let head = of("span", "by").text(format!("line {number}, rule {}: {title}", line.rule));
        let out = el("li").with("style", format!("--depth:{depth}")).child(head);
        let formula = |number: u16| code(&self.formulas[usize::from(number) - 1]);
        let names = &self.content.words.names;
        let middle = match self.content.image.program.instruction(line.thread, line.point) {
            Some(instruction) => {
                format!(
                    "{}: {}",
                    names.thread(line.thread),
                    names.instruction(line.thread, instruction)
                )
            }
            None => arrow(line.rule).to_string(),
        };
        let left = out.child(formula(line.left)).child(of("span", "then").text(middle));
        let out = left.child(formula(line.right));
        match again && !line.premises.is_empty() {
            true => out.child(of("span", "again").text("(its premises: above)")),
            false => out,
        }
    }
}

#[cfg(test)]
mod tests {
    use super::*;
    use crate::report::words::Words;
    use crate::text::parse_source::parse;

    fn content(text: &str) -> Content {
        let source = parse(text).expect("a source");
        let bytes = crate::build::build(&source).expect("built").image.bytes();
        let image = crate::image::read(&bytes).expect("an image");
        let words = Words::of_text(text, &source);
        let (judged, tried) = (Vec::new(), Vec::new());
        Content { image, words, judged, accepted: true, diagnosis: None, tried }
    }

    const TEXT: &str = "word x = 0
thread t { t sees one x } x := 1 { t sees one x and t sees [x = 1] }
thread u { true }";

    #[test]
    fn a_line_that_is_met_again_is_told_without_its_premises() {
        let content = content(TEXT);
        let mut trees = Trees::of(&content);
        let last = content.image.written.obligations[2];
        let told = trees.tree(last).written();
        let below = content.image.written.lines[usize::from(last) - 1].premises.len();
        assert!(below > 0 && told.matches("--depth:1\"").count() == below, "{told}");
        assert!(told.matches("<li").count() >= told.matches("above)").count() + below);
    }

    #[test]
    fn a_page_holds_so_many_lines() {
        let content = content(TEXT);
        let mut trees = Trees { left: 2, ..Trees::of(&content) };
        let told = trees.tree(content.image.written.obligations[2]).written();
        assert_eq!(told.matches("<li style").count(), 2);
        assert!(told.contains("More lines than a page holds"));
    }
}
