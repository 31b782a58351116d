//! Assertions in the outline's own words: as they are written, without comments, in one line.

use crate::text::lex::{tokens, Place, Token, KEYWORDS};
use crate::text::print::Names;
use crate::text::source::Source;
use reference::image::Program;

/// The words of a language that stand in formulas; at any other a formula has ended.
const IN_FORMULAS: [&str; 11] =
    ["sees", "holds", "start", "true", "false", "and", "or", "not", "one", "unsync", "cov"];

/// The sorts that may stand before the formula of a `let`.
const SORTS: [&str; 4] = ["value", "test", "interval", "assertion"];

/// What a page says of formulas.
pub struct Words {
    pub names: Names,
    /// The assertions at the points, by thread.
    pub assertions: Vec<Vec<String>>,
    /// What `let` names, in order, each with its formula.
    pub lets: Vec<(String, String)>,
}

impl Words {
    /// The words of an image, which has no text: its formulas as `show` writes them.
    pub fn of_image(names: &Names, program: &Program) -> Words {
        let told =
            |points: &Vec<_>| points.iter().map(|a: &std::rc::Rc<_>| names.assertion(a)).collect();
        let assertions = program.outline.iter().map(told).collect();
        Words { names: names.clone(), assertions, lets: Vec::new() }
    }

    /// The words of a text that was read.
    pub fn of_text(text: &str, source: &Source) -> Words {
        let list = tokens(text).list;
        let at = |place: Place| braced(text, &list, place);
        let thread = |points: &Vec<crate::text::source::Point>| {
            points
                .iter()
                .map(|p| at(p.line).unwrap_or_else(|| source.names.assertion(&p.assertion)))
                .collect()
        };
        let assertions = source.points.iter().map(thread).collect();
        Words { names: source.names.clone(), assertions, lets: lets(text, &list) }
    }

    /// The assertion at a point of a thread.
    pub fn assertion(&self, thread: u8, point: u8) -> &str {
        &self.assertions[usize::from(thread) - 1][usize::from(point)]
    }
}

/// The assertion in braces that begins at a place.
fn braced(text: &str, list: &[(Token, Place)], place: Place) -> Option<String> {
    let open = list.iter().position(|(_, at)| *at == place)?;
    let close = list[open..].iter().position(|(t, _)| *t == Token::Mark("}"))? + open;
    Some(between(text, list.get(open + 1)?.1, list[close].1))
}

/// Every `let` with its formula.
fn lets(text: &str, list: &[(Token, Place)]) -> Vec<(String, String)> {
    let mut all = Vec::new();
    for (at, (token, _)) in list.iter().enumerate() {
        let (Token::Name(word), Some((Token::Name(name), _))) = (token, list.get(at + 1)) else {
            continue;
        };
        if word != "let" {
            continue;
        }
        // Behind `let NAME =`, and behind the name of a sort.
        let sorted = is_one_of(&list[at + 3].0, &SORTS);
        let first = at + 3 + usize::from(sorted);
        let ends = |(t, _): &(Token, Place)| {
            *t == Token::End || (is_one_of(t, &KEYWORDS) && !is_one_of(t, &IN_FORMULAS))
        };
        let end = list[first..].iter().position(ends).map_or(list.len() - 1, |n| first + n);
        all.push((name.clone(), between(text, list[first].1, list[end].1)));
    }
    all
}

fn is_one_of(token: &Token, words: &[&str]) -> bool {
    matches!(token, Token::Name(name) if words.contains(&name.as_str()))
}

/// The text from one place to another, without comments, in one line.
fn between(text: &str, from: Place, to: Place) -> String {
    let mut words = Vec::new();
    for (number, line) in (1..).zip(text.lines()).take(to.line).skip(from.line - 1) {
        let code = line.split('#').next().unwrap_or("");
        let first = if number == from.line { from.column - 1 } else { 0 };
        let last = if number == to.line { to.column - 1 } else { code.chars().count() };
        let part: String = code.chars().take(last).skip(first).collect();
        words.extend(part.split_whitespace().map(String::from));
    }
    words.join(" ")
}

#[cfg(test)]
mod tests {
    use super::*;
    use crate::text::parse_source::parse;

    const TEXT: &str = "word x = 0   # { not this }
let Low = a sees [x < 2] ;   # a comment }
          one x
let Few = test r = 1
thread a
  registers r
  { true } x := 1
  { r = 0 =>   # then
      Low and holds (Few) }
";

    #[test]
    fn own_words_are_those_of_the_text() {
        let source = parse(TEXT).expect("a source");
        let words = Words::of_text(TEXT, &source);
        assert_eq!(words.assertions, [["true", "r = 0 => Low and holds (Few)"]]);
        let lets = [("Low", "a sees [x < 2] ; one x"), ("Few", "r = 1")];
        assert_eq!(words.lets, lets.map(|(a, b)| (a.to_string(), b.to_string())));
    }

    #[test]
    fn an_image_has_the_words_of_show() {
        let source = parse(TEXT).expect("a source");
        let [words, registers, threads] = ["w1", "r1", "t1"].map(|name| vec![name.to_string()]);
        let names = Names { words, registers, threads, ..Names::default() };
        let words = Words::of_image(&names, &source.program());
        assert_eq!(words.assertion(1, 1), "r1 != 0 or t1 sees [w1 < 2] ; one w1 and r1 = 1");
    }
}
