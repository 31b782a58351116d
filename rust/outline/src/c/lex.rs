//! C to tokens, each with its place in the file that it comes from.

use super::{refuse, At, Read};
use crate::text::lex::Place;

#[derive(Debug, Clone, PartialEq, Eq)]
pub enum Kind {
    Name(String),
    Number(u64),
    /// A string.
    Text(String),
    /// A character constant.
    Char,
    Mark(&'static str),
    /// What stands behind `//@`.
    Note(String),
    End,
}

#[derive(Debug, Clone, PartialEq, Eq)]
pub struct Token {
    pub kind: Kind,
    pub at: At,
}

impl Kind {
    /// The token as it is named in messages.
    pub fn shown(&self) -> String {
        match self {
            Kind::Name(name) => format!("`{name}`"),
            Kind::Number(number) => format!("`{number}`"),
            Kind::Text(_) => "a string".into(),
            Kind::Char => "a character".into(),
            Kind::Mark(mark) => format!("`{mark}`"),
            Kind::Note(_) => "an assertion behind `//@`".into(),
            Kind::End => "the end of the file".into(),
        }
    }
}

/// What the text is.
#[derive(Debug, Clone, Copy, PartialEq, Eq)]
pub enum Form {
    /// A litmus test: outside of the threads' bodies `(*` begins a comment.
    Litmus,
    /// What the C compiler's preprocessor has left, with lines that name files.
    Preprocessed,
}

/// The tokens of a text, and the names of the files that they come from.
#[derive(Debug)]
pub struct Tokens {
    pub list: Vec<Token>,
    pub files: Vec<String>,
}

/// Longest first, so that `<<=` is not read as `<<`.
const MARKS: [&str; 48] = [
    "<<=", ">>=", "...", "->", "++", "--", "<<", ">>", "<=", ">=", "==", "!=", "&&", "||", "+=",
    "-=", "*=", "/=", "%=", "&=", "|=", "^=", "/\\", "\\/", "{", "}", "(", ")", "[", "]", ";", ",",
    ":", "?", "=", "<", ">", "+", "-", "*", "/", "%", "&", "|", "^", "!", "~", ".",
];

/// Reads a text of which the first lines, so many, are passed over.
pub fn tokens(text: &str, form: Form, passed: usize, file: &str) -> Read<Tokens> {
    let mut lexer = Lexer {
        text: text.chars().collect(),
        at: 0,
        here: At { file: 0, place: Place { line: 1, column: 1 } },
        form,
        files: vec![file.to_string()],
        is_foreign: false,
        braces: Braces::default(),
        list: Vec::new(),
    };
    while lexer.here.place.line <= passed && lexer.peek(0).is_some() {
        lexer.step();
    }
    while lexer.peek(0).is_some() {
        lexer.one()?;
    }
    lexer.list.push(Token { kind: Kind::End, at: lexer.here });
    Ok(Tokens { list: lexer.list, files: lexer.files })
}

/// How deep in braces, and how many blocks have ended: the first is the start state.
#[derive(Default)]
struct Braces {
    depth: usize,
    ended: usize,
}

struct Lexer {
    text: Vec<char>,
    at: usize,
    here: At,
    form: Form,
    files: Vec<String>,
    /// Does this come from a header of the system, of which nothing is read?
    is_foreign: bool,
    braces: Braces,
    list: Vec<Token>,
}

impl Lexer {
    fn peek(&self, ahead: usize) -> Option<char> {
        self.text.get(self.at + ahead).copied()
    }

    fn sees(&self, mark: &str) -> bool {
        mark.chars().enumerate().all(|(n, c)| self.peek(n) == Some(c))
    }

    fn step(&mut self) {
        let place = &mut self.here.place;
        match self.text.get(self.at) {
            Some('\n') => *place = Place { line: place.line + 1, column: 1 },
            _ => place.column += 1,
        }
        self.at += 1;
    }

    fn skip(&mut self, count: usize) {
        (0..count).for_each(|_| self.step());
    }

    fn push(&mut self, kind: Kind, at: At) {
        if !self.is_foreign {
            self.list.push(Token { kind, at });
        }
    }

    /// One token, comment, line marker or blank.
    fn one(&mut self) -> Read<()> {
        let (at, first) = (self.here, self.text[self.at]);
        if first.is_whitespace() {
            self.step();
            return Ok(());
        }
        if self.form == Form::Litmus && !self.is_in_body() && self.sees("(*") {
            return self.nested_comment(at);
        }
        if self.sees("//") {
            self.line_comment(at);
            return Ok(());
        }
        if self.sees("/*") {
            return self.comment(at);
        }
        match first {
            '#' if self.form == Form::Preprocessed => self.marker(at),
            '"' => self.string(at),
            '\'' => self.character(at),
            c if c.is_ascii_digit() => self.number(at),
            c if c.is_ascii_alphabetic() || c == '_' => {
                let name = self.word();
                self.push(Kind::Name(name), at);
                Ok(())
            }
            _ => self.mark(at),
        }
    }

    /// Is this the body of a thread? The first block of a litmus test is its start state.
    fn is_in_body(&self) -> bool {
        self.braces.depth > 0 && self.braces.ended > 0
    }

    fn mark(&mut self, at: At) -> Read<()> {
        let Some(mark) = MARKS.iter().find(|mark| self.sees(mark)) else {
            return self.unknown(at);
        };
        match *mark {
            "{" => self.braces.depth += 1,
            "}" => {
                self.braces.depth = self.braces.depth.saturating_sub(1);
                self.braces.ended += usize::from(self.braces.depth == 0);
            }
            _ => {}
        }
        self.skip(mark.len());
        self.push(Kind::Mark(mark), at);
        Ok(())
    }

    fn unknown(&mut self, at: At) -> Read<()> {
        let found = self.text[self.at];
        self.step();
        match self.is_foreign {
            true => Ok(()),
            false => refuse(at, format!("`{}` means nothing here", found.escape_debug())),
        }
    }

    /// Letters, digits and underscores.
    fn word(&mut self) -> String {
        let mut word = String::new();
        while let Some(c) = self.peek(0).filter(|c| c.is_ascii_alphanumeric() || *c == '_') {
            word.push(c);
            self.step();
        }
        word
    }

    fn number(&mut self, at: At) -> Read<()> {
        let word = self.word();
        let is_fraction = self.peek(0) == Some('.');
        let digits = word.trim_end_matches(['u', 'U', 'l', 'L']);
        let value = match digits.strip_prefix("0x").or(digits.strip_prefix("0X")) {
            Some(hex) => u64::from_str_radix(hex, 16),
            None if digits.len() > 1 && digits.starts_with('0') => u64::from_str_radix(digits, 8),
            None => digits.parse(),
        };
        match value {
            Ok(value) if !is_fraction => {
                self.push(Kind::Number(value), at);
                Ok(())
            }
            _ if self.is_foreign => Ok(()),
            _ => refuse(at, format!("`{word}` is no whole number that is known here")),
        }
    }

    fn string(&mut self, at: At) -> Read<()> {
        let text = self.quoted('"', at)?;
        self.push(Kind::Text(text), at);
        Ok(())
    }

    fn character(&mut self, at: At) -> Read<()> {
        self.quoted('\'', at)?;
        self.push(Kind::Char, at);
        Ok(())
    }

    /// What stands between two quotes, a backslash with what follows it as it is.
    fn quoted(&mut self, quote: char, at: At) -> Read<String> {
        let mut text = String::new();
        self.step();
        loop {
            match self.peek(0) {
                None | Some('\n') => {
                    return refuse(at, format!("no {quote} ends what begins here"))
                }
                Some(c) if c == quote => break,
                Some('\\') => {
                    text.push('\\');
                    self.step();
                    text.extend(self.peek(0));
                }
                Some(c) => text.push(c),
            }
            self.step();
        }
        self.step();
        Ok(text)
    }

    /// A comment to the end of the line; behind `//@` it is an assertion.
    fn line_comment(&mut self, at: At) {
        let mut text = String::new();
        while let Some(c) = self.peek(0).filter(|c| *c != '\n') {
            text.push(c);
            self.step();
        }
        if let Some(note) = text.strip_prefix("//@") {
            self.push(Kind::Note(note.trim().into()), at);
        }
    }

    fn comment(&mut self, at: At) -> Read<()> {
        while !self.sees("*/") || self.here == at {
            if self.peek(0).is_none() {
                return refuse(at, "no */ ends the comment that begins here");
            }
            // `/*/` is no whole comment.
            self.skip(if self.here == at { 2 } else { 1 });
        }
        self.skip(2);
        Ok(())
    }

    /// `(* .. *)`, in which others may stand.
    fn nested_comment(&mut self, at: At) -> Read<()> {
        let mut depth = 0;
        loop {
            let (opens, closes) = (self.sees("(*"), self.sees("*)"));
            depth = if opens { depth + 1 } else { depth - usize::from(closes) };
            if self.peek(0).is_none() {
                return refuse(at, "no *) ends the comment that begins here");
            }
            self.skip(if opens || closes { 2 } else { 1 });
            if depth == 0 {
                return Ok(());
            }
        }
    }

    /// `# LINE "FILE" FLAGS`: where the next line comes from. Flag 3 is a header of the system.
    fn marker(&mut self, at: At) -> Read<()> {
        let mut line = String::new();
        while let Some(c) = self.peek(0).filter(|c| *c != '\n') {
            line.push(c);
            self.step();
        }
        let rest = line.trim_start_matches('#').trim_start();
        let (number, rest) = rest.split_once(' ').unwrap_or((rest, ""));
        let Ok(number) = number.parse::<usize>() else {
            let told = format!("`{}` is no part of the subset", line.trim());
            return if self.is_foreign { Ok(()) } else { refuse(at, told) };
        };
        let (name, flags) =
            rest.trim().strip_prefix('"').unwrap_or("").rsplit_once('"').unwrap_or_default();
        self.enter(name, flags.split(' ').any(|flag| flag == "3"), number);
        Ok(())
    }

    fn enter(&mut self, name: &str, is_system: bool, line: usize) {
        let known = self.files.iter().position(|file| file == name);
        let file = known.unwrap_or_else(|| {
            self.files.push(name.to_string());
            self.files.len() - 1
        });
        // What a header's macro puts into the file that was asked for belongs to it.
        self.is_foreign = name.starts_with('<') || is_system && file != 0;
        // The marker's own line ends with a line feed that is still to come.
        let place = Place { line: line.saturating_sub(1), column: 1 };
        self.here = At { file: file as u16, place };
    }
}

#[cfg(test)]
mod tests {
    use super::*;

    fn kinds(text: &str, form: Form) -> Vec<Kind> {
        tokens(text, form, 0, "f").expect("tokens").list.into_iter().map(|t| t.kind).collect()
    }

    fn name(text: &str) -> Kind {
        Kind::Name(text.into())
    }

    #[test]
    fn comments_strings_and_numbers_are_read() {
        let text = "a/*b*/c//d\n\"e /* f\" 'g' 0x1F 017 3u //@ { x } \n/**/ h";
        let want = [
            name("a"),
            name("c"),
            Kind::Text("e /* f".into()),
            Kind::Char,
            Kind::Number(31),
            Kind::Number(15),
            Kind::Number(3),
            Kind::Note("{ x }".into()),
            name("h"),
            Kind::End,
        ];
        assert_eq!(kinds(text, Form::Preprocessed), want);
    }

    /// In a thread's body `(*x` is C; elsewhere `(*` begins a comment.
    #[test]
    fn comments_of_litmus_tests_stand_outside_of_bodies() {
        let text = "{ (* a (* b *) *) x=0; } P0(int *x) { READ_ONCE(*x); } (* c *) exists";
        let all = kinds(text, Form::Litmus);
        assert_eq!(all.iter().filter(|kind| **kind == Kind::Mark("*")).count(), 2);
        assert_eq!(all[all.len() - 2], name("exists"));
        assert!(!all.contains(&name("a")) && !all.contains(&name("c")));
    }

    #[test]
    fn line_markers_say_where_a_line_comes_from() {
        let text =
            "# 1 \"f\"\na\n# 1 \"/usr/x.h\" 1 3\nb $ 1.5\n# 7 \"f\" 2\nc\n# 7 \"f\" 3 4\n d\n";
        let found = tokens(text, Form::Preprocessed, 0, "f").expect("tokens");
        let places: Vec<(u16, usize, usize)> =
            found.list.iter().map(|t| (t.at.file, t.at.place.line, t.at.place.column)).collect();
        assert_eq!(places, [(0, 1, 1), (0, 7, 1), (0, 7, 2), (0, 8, 1)]);
    }

    #[test]
    fn what_has_no_end_is_refused_at_its_beginning() {
        for (text, column) in
            [("a \"b", 3), ("a /* b", 3), ("'\n'", 1), ("a $", 3), ("a 1.5", 3), ("/*/", 1)]
        {
            let refusal = tokens(text, Form::Preprocessed, 0, "f").expect_err("refused");
            assert_eq!(refusal.at.place, Place { line: 1, column }, "{text}");
        }
        assert!(tokens("{} (* a", Form::Litmus, 0, "f").is_err());
    }
}
