//! Texts with one statement a line: words, a comment behind `#`, and what is wrong with a word.

use super::lex::{Mistake, Place};

/// A fault with its column.
pub type Fault = (usize, String);

/// The words of a line before its comment.
pub fn words(content: &str) -> impl Iterator<Item = &str> {
    content.split('#').next().unwrap_or_default().split_whitespace()
}

/// What is wrong with a word of a line; words count from 0.
pub fn fault(content: &str, word: usize, text: &str) -> Fault {
    let word = words(content).nth(word).unwrap_or_default();
    // The word is a part of the line, so the distance is where it begins.
    let before = word.as_ptr() as usize - content.as_ptr() as usize;
    (content[..before].chars().count() + 1, format!("`{word}` {text}"))
}

/// A fault of a line, which counts from 1.
pub fn mistake(line: usize, (column, text): Fault) -> Mistake {
    Mistake { line: Place { line, column }, text }
}

/// A number in plain digits.
pub fn number<N: std::str::FromStr>(word: &str) -> Option<N> {
    let digits = !word.is_empty() && word.bytes().all(|byte| byte.is_ascii_digit());
    word.parse().ok().filter(|_| digits)
}
