//! Pieces to lines.

use super::pieces::{Piece, What};
use crate::text::lex::Token;

/// A line that is wrapped goes on so much further to the right.
const CONTINUED: usize = 2;

#[derive(Default)]
struct Line {
    indent: usize,
    code: String,
    comment: Option<String>,
    /// Whether an empty line stands before it.
    apart: bool,
}

impl Line {
    fn width(&self) -> usize {
        self.indent + self.code.chars().count()
    }

    fn has_both(&self) -> bool {
        !self.code.is_empty() && self.comment.is_some()
    }

    fn is_comment(&self) -> bool {
        self.code.is_empty()
    }
}

/// The lines so far, and the spaces before the declaration, point or instruction that is being written.
#[derive(Default)]
pub struct Layout {
    lines: Vec<Line>,
    indent: usize,
    last: Option<Token>,
}

impl Layout {
    /// One more piece; `starts` has for each token the spaces before it, if a line begins there.
    pub fn add(&mut self, all: &[Piece], at: usize, starts: &[Option<usize>]) {
        let piece = &all[at];
        match &piece.what {
            What::Token(token) => self.token(piece, token, starts[piece.token]),
            What::Comment(comment) => self.comment(piece, comment, starts),
        }
    }

    fn token(&mut self, piece: &Piece, token: &Token, start: Option<usize>) {
        let line = match start {
            Some(indent) => {
                self.indent = indent;
                Some(Line { indent, apart: piece.breaks > 1, ..Line::default() })
            }
            None if piece.breaks > 0 => {
                let closes = *token == Token::Mark("}");
                let indent = self.indent + if closes { 0 } else { CONTINUED };
                Some(Line { indent, ..Line::default() })
            }
            None => None,
        };
        if let Some(line) = line {
            self.lines.push(line);
            if start.is_some() && is_apart(token) {
                self.set_apart();
            }
        }
        let Some(line) = self.lines.last_mut() else { return };
        let spaced = self.last.as_ref().is_some_and(|last| is_spaced(last, token));
        line.code += if spaced && !line.code.is_empty() { " " } else { "" };
        line.code += &written(token);
        self.last = Some(token.clone());
    }

    /// A comment behind what it speaks of, or on a line of its own, as far to the right as what follows it.
    fn comment(&mut self, piece: &Piece, comment: &str, starts: &[Option<usize>]) {
        if let (0, Some(line)) = (piece.breaks, self.lines.last_mut()) {
            line.comment = Some(comment.into());
            return;
        }
        let ends = piece.token + 1 == starts.len();
        let next = if ends { Some(0) } else { starts[piece.token] };
        let indent = next.unwrap_or(self.indent + CONTINUED);
        let apart = piece.breaks > 1 && next.is_some();
        self.lines.push(Line { indent, apart, comment: Some(comment.into()), code: String::new() });
    }

    /// An empty line before the last line, and before the comments that stand right above it.
    fn set_apart(&mut self) {
        let mut at = self.lines.len() - 1;
        while at > 0 && !self.lines[at].apart && self.lines[at - 1].is_comment() {
            at -= 1;
        }
        self.lines[at].apart = true;
    }

    /// All lines. Comments behind code in lines that follow each other stand in one column.
    pub fn text(&self) -> String {
        let mut out = String::new();
        let (mut column, mut until) = (0, 0);
        for (at, line) in self.lines.iter().enumerate() {
            if at >= until {
                (column, until) = self.column(at);
            }
            out += if line.apart && at > 0 { "\n" } else { "" };
            out += &" ".repeat(line.indent);
            out += &line.code;
            if let Some(comment) = &line.comment {
                let gap = if line.has_both() { column - line.width() } else { 0 };
                out += &" ".repeat(gap);
                out += comment;
            }
            out += "\n";
        }
        out
    }

    /// The column of the comments from a line on, and the line at which they end.
    fn column(&self, from: usize) -> (usize, usize) {
        let goes_on = |line: &&Line| line.has_both();
        let group = self.lines[from..].iter().take_while(goes_on);
        let apart = group.clone().skip(1).position(|line| line.apart).map(|at| at + 1);
        let length = apart.unwrap_or(group.clone().count());
        let widest = group.take(length).map(Line::width).max().unwrap_or(0);
        (widest + 2, from + length.max(1))
    }
}

/// Threads and parts have an empty line before them.
fn is_apart(token: &Token) -> bool {
    matches!(token, Token::Name(name) if ["thread", "proof", "certificate"].contains(&name.as_str()))
}

fn is_spaced(last: &Token, token: &Token) -> bool {
    let opens = matches!(last, Token::Mark("(" | "[" | "@"));
    let closes = matches!(token, Token::Mark(")" | "]" | "," | ":"));
    !opens && !closes
}

fn written(token: &Token) -> String {
    match token {
        Token::Name(name) => name.clone(),
        Token::Number(number) => number.to_string(),
        Token::Mark(mark) => mark.to_string(),
        Token::End => String::new(),
    }
}
