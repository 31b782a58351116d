//! Places of the text and of the protocol: the text counts lines and characters from 1, the protocol lines and units of
//! UTF-16 from 0.

use super::json::Json;
use crate::command::json::object;
use crate::text::lex::{Place, Token};

/// A line and a column as the protocol counts them.
#[derive(Debug, Clone, Copy, PartialEq, Eq, PartialOrd, Ord)]
pub struct Position {
    pub line: usize,
    pub character: usize,
}

/// From one position up to another.
#[derive(Debug, Clone, Copy, PartialEq, Eq)]
pub struct Range {
    pub start: Position,
    pub end: Position,
}

impl Position {
    pub fn read(json: &Json) -> Option<Position> {
        let part = |name: &str| json.get(name)?.number();
        Some(Position { line: part("line")?, character: part("character")? })
    }

    /// The position of a place; column 0 is the first one.
    pub fn of(lines: &[&str], place: Place) -> Position {
        let line = place.line.saturating_sub(1);
        let content = lines.get(line).copied().unwrap_or("");
        let before = content.chars().take(place.column.saturating_sub(1));
        Position { line, character: before.map(char::len_utf16).sum() }
    }

    /// The place of a position; a column behind the line's end is its end, and so is one inside of a character its start.
    pub fn place(&self, lines: &[&str]) -> Option<Place> {
        let content = lines.get(self.line)?;
        let (mut units, mut column) = (0, 1);
        for c in content.chars() {
            units += c.len_utf16();
            if units > self.character {
                break;
            }
            column += 1;
        }
        Some(Place { line: self.line + 1, column })
    }

    pub fn json(&self) -> String {
        let parts = [("line", self.line.to_string()), ("character", self.character.to_string())];
        object(&parts)
    }
}

impl Range {
    pub fn read(json: &Json) -> Option<Range> {
        let part = |name: &str| Position::read(json.get(name)?);
        Some(Range { start: part("start")?, end: part("end")? })
    }

    pub fn json(&self) -> String {
        object(&[("start", self.start.json()), ("end", self.end.json())])
    }

    /// A token's range.
    pub fn of_token(lines: &[&str], (token, place): &(Token, Place)) -> Range {
        let length = token_length(token);
        let end = Place { line: place.line, column: place.column + length };
        Range { start: Position::of(lines, *place), end: Position::of(lines, end) }
    }

    /// From the first character of a token to the last one of another.
    pub fn of_tokens(lines: &[&str], list: &[(Token, Place)], from: usize, to: usize) -> Range {
        let last = list.len() - 1;
        let (start, end) = (
            Range::of_token(lines, &list[from.min(last)]),
            Range::of_token(lines, &list[to.min(last)]),
        );
        Range { start: start.start, end: end.end }
    }

    /// The rest of a line, from a place on: what a mistake is about.
    pub fn from_place(lines: &[&str], list: &[(Token, Place)], place: Place) -> Range {
        if let Some(found) = list.iter().find(|(_, at)| *at == place) {
            return Range::of_token(lines, found);
        }
        let start = Position::of(lines, place);
        let content = lines.get(start.line).copied().unwrap_or("").trim_end();
        let end = content.chars().map(char::len_utf16).sum::<usize>();
        Range { start, end: Position { line: start.line, character: end.max(start.character) } }
    }

    /// The whole text.
    pub fn whole(text: &str) -> Range {
        let lines = text.matches('\n').count();
        let last = text.rsplit('\n').next().unwrap_or("");
        let character = last.chars().map(char::len_utf16).sum();
        Range {
            start: Position { line: 0, character: 0 },
            end: Position { line: lines, character },
        }
    }

    pub fn touches(&self, other: &Range) -> bool {
        self.start <= other.end && other.start <= self.end
    }
}

/// The characters of a token in the text; a number is taken to be written without zeros in front.
fn token_length(token: &Token) -> usize {
    match token {
        Token::Name(name) => name.chars().count(),
        Token::Number(number) => number.to_string().len(),
        Token::Mark(mark) => mark.len(),
        Token::End => 0,
    }
}

#[cfg(test)]
mod tests {
    use super::*;

    #[test]
    fn columns_are_units_of_utf_16() {
        let lines = ["a😀b", ""];
        let at = |line, character| Position { line, character }.place(&lines).map(|p| p.column);
        assert_eq!(
            [at(0, 0), at(0, 1), at(0, 2), at(0, 3), at(0, 99)],
            [Some(1), Some(2), Some(2), Some(3), Some(4)]
        );
        assert_eq!((at(1, 5), at(2, 0)), (Some(1), None));
        let back = Position::of(&lines, Place { line: 1, column: 3 });
        assert_eq!(back, Position { line: 0, character: 3 });
    }
}
