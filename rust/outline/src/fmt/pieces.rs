//! A text as tokens and comments in their order, each with the line breaks before it.

use crate::text::lex::{tokens, Place, Token};

#[derive(Debug, Clone, PartialEq, Eq)]
pub enum What {
    Token(Token),
    /// From `#` on, without the spaces at its end.
    Comment(String),
}

#[derive(Debug, Clone)]
pub struct Piece {
    pub what: What,
    /// How many line breaks stand before it.
    pub breaks: usize,
    /// The number of the token; of a comment that of the token behind it.
    pub token: usize,
}

/// The pieces of a text, and its tokens alone; the end of the text is a token, and no piece.
pub fn pieces(text: &str) -> (Vec<Piece>, Vec<(Token, Place)>) {
    let list = tokens(text).list;
    let ends = list.len() - 1;
    let token = |(at, (token, place)): (usize, &(Token, Place))| {
        (place.line, at, What::Token(token.clone()))
    };
    let mut all: Vec<(usize, usize, What)> = list[..ends].iter().enumerate().map(token).collect();
    // A comment stands behind all tokens of its line.
    let behind = |line: usize| list[..ends].partition_point(|(_, place)| place.line <= line);
    let comment = |(line, content): (usize, &str)| {
        let comment = content[content.find('#')?..].trim_end().to_string();
        Some((line, behind(line), What::Comment(comment)))
    };
    all.extend((1..).zip(text.lines()).filter_map(comment));
    all.sort_by_key(|(line, _, what)| (*line, matches!(what, What::Comment(_))));
    let mut last = 1;
    let piece = |(line, token, what): (usize, usize, What)| {
        let breaks = line - last;
        last = line;
        Piece { what, breaks, token }
    };
    (all.into_iter().map(piece).collect(), list)
}
