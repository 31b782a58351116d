//! The syntax files of `editors`: every token of every example is coloured for what it is, and no word or mark that the tool reads is
//! missing.

// A part of the reader is enough here.
#[allow(dead_code)]
#[path = "json/parse.rs"]
mod parse;

use outline::text::lex::{tokens, Token, KEYWORDS, MARKS};
use parse::{parse, Json};
use std::collections::BTreeSet;
use std::path::{Path, PathBuf};

fn root() -> PathBuf {
    Path::new(env!("CARGO_MANIFEST_DIR")).join("../..")
}

fn read(file: &str) -> String {
    std::fs::read_to_string(root().join(file)).unwrap_or_else(|e| panic!("{file}: {e}"))
}

/// A pattern of the grammar: alternatives, each a text or one of the three classes that the grammar has.
struct Pattern {
    name: String,
    alternatives: Vec<String>,
    /// Whether words are meant, which end where no letter, digit or `_` follows.
    is_word: bool,
}

impl Pattern {
    /// Reads what the grammar uses of regular expressions and nothing else, so that no pattern is taken for another.
    fn of(json: &Json) -> Pattern {
        let part = |name: &str| json.get(name).and_then(Json::text).expect("a text").to_string();
        let (name, written) = (part("name"), part("match"));
        let words = written.strip_prefix("\\b(").and_then(|rest| rest.strip_suffix(")\\b"));
        let alternatives = match words {
            Some(words) => words.split('|').map(String::from).collect(),
            None => split(&written),
        };
        Pattern { name, alternatives, is_word: words.is_some() }
    }

    /// The length of what it matches at the front of a text.
    fn matches(&self, text: &str, before: Option<char>) -> Option<usize> {
        let is_letter = |c: char| c.is_ascii_alphanumeric() || c == '_';
        let starts_word = self.is_word && before.is_some_and(is_letter);
        let one = |alternative: &String| {
            let length = match alternative.as_str() {
                "#.*" => text.starts_with('#').then_some(text.len()),
                "[0-9]+" => {
                    Some(text.len() - text.trim_start_matches(|c: char| c.is_ascii_digit()).len())
                }
                "[A-Za-z_][A-Za-z0-9_']*" => {
                    let begins = text.starts_with(|c: char| c.is_ascii_alphabetic() || c == '_');
                    let rest = text.trim_start_matches(|c: char| is_letter(c) || c == '\'');
                    begins.then_some(text.len() - rest.len())
                }
                plain => {
                    let (plain, ends) = match plain.strip_suffix("\\b") {
                        Some(word) => (word, true),
                        None => (plain, self.is_word),
                    };
                    let plain = plain.replace('\\', "");
                    let rest = text.strip_prefix(plain.as_str())?;
                    (!(ends && rest.starts_with(is_letter))).then_some(plain.len())
                }
            };
            length.filter(|length| *length > 0)
        };
        if starts_word {
            return None;
        }
        self.alternatives.iter().find_map(one)
    }
}

/// The alternatives of a pattern without groups; a bar behind a backslash is a letter.
fn split(written: &str) -> Vec<String> {
    let mut all = vec![String::new()];
    let mut letters = written.chars();
    while let Some(c) = letters.next() {
        match c {
            '|' => all.push(String::new()),
            '\\' => {
                let last = all.last_mut().expect("one");
                last.push(c);
                last.extend(letters.next());
            }
            c => all.last_mut().expect("one").push(c),
        }
    }
    all
}

fn patterns() -> Vec<Pattern> {
    let grammar = parse(&read("editors/vscode/syntaxes/outline.tmLanguage.json"));
    grammar.get("patterns").expect("patterns").list().iter().map(Pattern::of).collect()
}

/// The parts of a line with their scopes, as an editor finds them: the leftmost match, of several the first pattern's.
fn coloured(line: &str, patterns: &[Pattern]) -> Vec<(usize, String, String)> {
    let (mut all, mut at, mut before) = (Vec::new(), 0, None);
    while at < line.len() {
        let rest = &line[at..];
        let found = patterns.iter().find_map(|p| Some((p.matches(rest, before)?, p.name.clone())));
        let length = match found {
            Some((length, name)) => {
                all.push((at, rest[..length].to_string(), name));
                length
            }
            None => {
                let c = rest.chars().next().expect("a character");
                assert!(c.is_whitespace(), "{line}: {c} has no colour");
                c.len_utf8()
            }
        };
        before = line[..at + length].chars().last();
        at += length;
    }
    all
}

fn texts() -> Vec<String> {
    let mut all = Vec::new();
    for folder in ["examples", "examples/infer", "examples/update"] {
        for entry in std::fs::read_dir(root().join(folder)).expect("the examples") {
            let path = entry.expect("a file").path();
            if path.extension().is_some_and(|end| end == "outline" || end == "program") {
                all.push(std::fs::read_to_string(path).expect("a text"));
            }
        }
    }
    assert!(all.len() > 90);
    all
}

#[test]
fn every_token_of_the_examples_is_coloured_for_what_it_is() {
    let patterns = patterns();
    let mut seen = BTreeSet::new();
    for text in texts() {
        for line in text.lines() {
            let mut parts = coloured(line, &patterns);
            if line.contains('#') {
                assert!(parts.pop().expect("a comment").2.starts_with("comment."), "{line}");
            }
            let list = tokens(line).list;
            let read: Vec<(usize, String)> = list[..list.len() - 1]
                .iter()
                .map(|(token, place)| {
                    (place.column - 1, token.shown().trim_matches('`').to_string())
                })
                .collect();
            let found: Vec<(usize, String)> =
                parts.iter().map(|part| (part.0, part.1.clone())).collect();
            // Code is ASCII before a comment, so that columns are bytes.
            assert_eq!(found, read, "{line}");
            for ((token, _), (_, word, scope)) in list.iter().zip(&parts) {
                let wanted = match token {
                    Token::Number(_) => "constant.numeric",
                    Token::Mark("(" | ")" | "[" | "]" | "{" | "}") => "punctuation.bracket",
                    Token::Mark(_) => "keyword.operator.outline",
                    Token::Name(name) if !KEYWORDS.contains(&name.as_str()) => "variable.other",
                    _ => "",
                };
                assert!(
                    scope.starts_with(wanted)
                        && (!wanted.is_empty() || !scope.starts_with("variable")),
                    "{word}: {scope}"
                );
                seen.insert(scope.clone());
            }
        }
    }
    assert!(seen.len() >= 8, "{seen:?}");
}

/// A word or a mark that the tool learns has to be added to both files.
#[test]
fn all_words_and_marks_are_there() {
    let patterns = patterns();
    let of = |name: &str| {
        let all = patterns.iter().filter(|p| p.name.starts_with(name));
        all.flat_map(|p| p.alternatives.clone()).collect::<Vec<String>>()
    };
    let words: BTreeSet<String> =
        patterns.iter().filter(|p| p.is_word).flat_map(|p| p.alternatives.clone()).collect();
    assert_eq!(words, KEYWORDS.iter().map(|word| word.to_string()).collect());
    let plain = |mark: &String| mark.replace("\\b", "").replace('\\', "");
    let mut marks: Vec<String> = of("keyword.operator.outline").iter().map(plain).collect();
    marks.extend(of("punctuation.bracket").iter().map(plain));
    // In the same order: longer ones come first.
    let sorted = |mut all: Vec<String>| {
        all.sort();
        all
    };
    assert_eq!(sorted(marks.clone()), sorted(MARKS.iter().map(|mark| mark.to_string()).collect()));
    let place = |mark: &str| marks.iter().position(|other| other == mark).expect("it is there");
    for (one, other) in MARKS.iter().flat_map(|a| MARKS.iter().map(move |b| (a, b))) {
        assert!(
            one == other || !other.starts_with(one) || place(other) < place(one),
            "{one} {other}"
        );
    }
    let vim = read("editors/vim/syntax/outline.vim");
    let keywords = vim.lines().filter_map(|line| line.strip_prefix("syntax keyword outline"));
    let keywords =
        keywords.filter(|line| !line.starts_with("Todo")).flat_map(|line| line.split(' ').skip(1));
    let actions =
        vim.lines().find(|line| line.starts_with("syntax match outlineAction")).expect("a line");
    let actions =
        ["swap", "exchange", "fetch-add"].into_iter().filter(|word| actions.contains(word));
    let found: BTreeSet<String> = keywords.chain(actions).map(String::from).collect();
    assert_eq!(found, words);
    let line =
        vim.lines().find(|line| line.starts_with("syntax match outlineMark")).expect("marks");
    let (alternatives, set) =
        line.split_once("\\|[").map(|(a, b)| (a, b.trim_end_matches("]/"))).expect("a set");
    let alternatives = alternatives.split('/').nth(1).expect("a pattern").split("\\|");
    let found =
        alternatives.map(|mark| mark.replace("\\>", "")).chain(set.chars().map(String::from));
    let brackets = ["(", ")", "[", "]", "{", "}"].map(String::from);
    assert_eq!(
        sorted(found.chain(brackets).collect()),
        sorted(MARKS.iter().map(|m| m.to_string()).collect())
    );
}
