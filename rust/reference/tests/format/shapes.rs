//! The shapes of the rules as the page writes them, read with what their letters stand for.

use crate::letters::Choice;
use reference::formula::replace::{Replace, Replacement};
use reference::formula::{Assertion, Interval, Test, Value};

pub struct Shape<'a> {
    choice: &'a Choice<'a>,
    words: Vec<&'a str>,
    place: usize,
}

/// Cuts a shape into words and signs.
fn words(text: &str) -> Vec<&str> {
    let mut found = Vec::new();
    let mut rest = text.trim_start();
    while let Some(first) = rest.chars().next() {
        let length = match first {
            ':' => 2,
            _ if first.is_alphanumeric() => {
                rest.find(|sign: char| !sign.is_alphanumeric()).unwrap_or(rest.len())
            }
            _ => 1,
        };
        found.push(&rest[..length]);
        rest = rest[length..].trim_start();
    }
    found
}

/// The assertion that a shape says.
pub fn assertion(text: &str, choice: &Choice) -> Assertion {
    whole(text, choice, |shape| shape.assertion())
}

/// The interval that a shape says.
pub fn interval(text: &str, choice: &Choice) -> Interval {
    whole(text, choice, |shape| shape.interval())
}

fn whole<T>(text: &str, choice: &Choice, read: impl Fn(&mut Shape) -> T) -> T {
    let mut shape = Shape { choice, words: words(text), place: 0 };
    let found = read(&mut shape);
    assert_eq!(shape.place, shape.words.len(), "{text}");
    found
}

impl<'a> Shape<'a> {
    fn peek(&self) -> &'a str {
        self.words.get(self.place).copied().unwrap_or("")
    }

    fn take(&mut self) -> &'a str {
        let word = self.peek();
        self.place += 1;
        word
    }

    fn skip(&mut self, word: &str) {
        let found = self.take();
        assert_eq!(found, word, "{:?}", self.words);
    }

    /// Whether the word comes next; then it is taken.
    fn comes(&mut self, word: &str) -> bool {
        let here = self.peek() == word;
        self.place += usize::from(here);
        here
    }

    fn letter(&mut self) -> char {
        let word = self.take();
        let mut letters = word.chars();
        match (letters.next(), letters.next()) {
            (Some(letter), None) => letter,
            _ => panic!("no letter: {word:?} in {:?}", self.words),
        }
    }

    fn assertion(&mut self) -> Assertion {
        let first = self.one_assertion();
        match self.peek() {
            "and" => {
                self.take();
                Assertion::both(first, self.one_assertion())
            }
            "or" => {
                self.take();
                Assertion::either(first, self.one_assertion())
            }
            _ => first,
        }
    }

    fn one_assertion(&mut self) -> Assertion {
        if self.comes("(") {
            let inner = self.assertion();
            self.skip(")");
            return inner;
        }
        if self.comes("start") {
            return Assertion::Start;
        }
        if self.comes("holds") {
            return Assertion::holds(self.test());
        }
        let letter = self.letter();
        if self.comes("sees") {
            return Assertion::sees(self.choice.thread(letter), self.interval());
        }
        let tree = self.choice.assertion(letter);
        self.replaced(tree)
    }

    fn interval(&mut self) -> Interval {
        let first = self.one_interval();
        match self.peek() {
            ";" => {
                self.take();
                Interval::chop(first, self.one_interval())
            }
            "&" => {
                self.take();
                Interval::both(first, self.one_interval())
            }
            "|" => {
                self.take();
                Interval::either(first, self.one_interval())
            }
            _ => first,
        }
    }

    fn one_interval(&mut self) -> Interval {
        if self.comes("(") {
            let inner = self.interval();
            self.skip(")");
            return inner;
        }
        if self.comes("[") {
            let test = self.tests();
            self.skip("]");
            return Interval::all(test);
        }
        let word = self.choice.word();
        if self.comes("one") {
            self.skip("x");
            return Interval::One(word);
        }
        if self.comes("C") {
            return Interval::chop(Interval::all(Test::Covered(word)), Interval::One(word));
        }
        let letter = self.letter();
        self.choice.interval(letter)
    }

    /// A test within brackets.
    fn tests(&mut self) -> Test {
        let first = self.test();
        if self.comes("and") {
            return Test::and(first, self.test());
        }
        first
    }

    fn test(&mut self) -> Test {
        if let "unsync" | "cov" = self.peek() {
            let flag = self.take();
            self.skip("x");
            let word = self.choice.word();
            return if flag == "cov" { Test::Covered(word) } else { Test::Unsync(word) };
        }
        let letter = self.letter();
        if "EFeg".contains(letter) {
            let tree = self.choice.test(letter);
            return self.replaced(tree);
        }
        self.skip("=");
        let right = self.letter();
        Test::equal(self.choice.value(letter), self.choice.value(right))
    }

    /// The tree with what stands in braces behind it replaced.
    fn replaced<T: Replace + Clone>(&mut self, tree: T) -> T {
        if !self.comes("{") {
            return tree;
        }
        let old = self.letter();
        self.skip(":=");
        let new = self.letter();
        self.skip("}");
        let with = self.replacements(old, new);
        tree.replace(&with).as_ref().clone()
    }

    fn replacements(&self, old: char, new: char) -> Vec<Replacement> {
        if let ('r', 'f') | ('q', 'h') = (old, new) {
            let notes = self.choice.notes(old).into_iter();
            let by_note = notes.map(|note| (Value::Register(note.register), note.value));
            return by_note.map(|(leaf, by)| Replacement { leaf, by }).collect();
        }
        vec![Replacement { leaf: self.choice.leaf(old), by: self.choice.value(new) }]
    }
}
