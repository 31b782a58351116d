//! Text to tokens, each with its line number.

/// A line of the text, and a column in it: both count from 1, and column 0 is the line as a whole.
#[derive(Debug, Clone, Copy, PartialEq, Eq, PartialOrd, Ord)]
pub struct Place {
    pub line: usize,
    pub column: usize,
}

impl From<usize> for Place {
    fn from(line: usize) -> Place {
        Place { line, column: 0 }
    }
}

impl PartialEq<usize> for Place {
    fn eq(&self, line: &usize) -> bool {
        self.line == *line
    }
}

impl std::fmt::Display for Place {
    fn fmt(&self, out: &mut std::fmt::Formatter) -> std::fmt::Result {
        write!(out, "{}", self.line)
    }
}

/// A mistake in the text: where and what.
#[derive(Debug, Clone, PartialEq, Eq)]
pub struct Mistake {
    pub line: Place,
    pub text: String,
}

impl std::fmt::Display for Mistake {
    fn fmt(&self, out: &mut std::fmt::Formatter) -> std::fmt::Result {
        write!(out, "line {}: {}", self.line, self.text)
    }
}

#[derive(Debug, Clone, PartialEq, Eq)]
pub enum Token {
    Name(String),
    Number(usize),
    Mark(&'static str),
    End,
}

impl Token {
    /// The token as it is named in messages.
    pub fn shown(&self) -> String {
        match self {
            Token::Name(n) => format!("`{n}`"),
            Token::Number(n) => format!("`{n}`"),
            Token::Mark(m) => format!("`{m}`"),
            Token::End => "the end of the text".into(),
        }
    }
}

/// The marks of the language. Longest first, so that `:=rel` is not read as `:=`.
pub const MARKS: [&str; 25] = [
    ":=rel", "<-acq", ":=", "<-", "=>", "!=", "<=", ">=", "=", "<", ">", "+", "(", ")", "[", "]",
    "{", "}", ";", "&", "|", ",", ":", "@", "?",
];

/// The one word with a hyphen.
const FETCH_ADD: &str = "fetch-add";

/// The words that cannot be names.
pub const KEYWORDS: [&str; 35] = [
    "range",
    "word",
    "register",
    "registers",
    "open",
    "of",
    "let",
    "thread",
    "never",
    "proof",
    "certificate",
    "sees",
    "holds",
    "start",
    "true",
    "false",
    "and",
    "or",
    "not",
    "one",
    "unsync",
    "cov",
    "swap",
    "exchange",
    FETCH_ADD,
    "if",
    "goto",
    "in",
    "to",
    "by",
    "at",
    "value",
    "test",
    "interval",
    "assertion",
];

/// The tokens of a text.
pub struct Tokens {
    /// With their places; the last one is `End`.
    pub list: Vec<(Token, Place)>,
    /// What is no token, and was passed over.
    pub mistakes: Vec<Mistake>,
}

/// All tokens of a text.
pub fn tokens(text: &str) -> Tokens {
    let mut all = Tokens { list: Vec::new(), mistakes: Vec::new() };
    let mut last = Place { line: 1, column: 1 };
    for (i, line) in text.lines().enumerate() {
        // A comment would run on past it, to the end of the text in the worst case.
        if let Some((before, _)) = line.split_once('\r') {
            let line = Place { line: i + 1, column: before.chars().count() + 1 };
            let text = "a carriage return stands alone here; lines end with a line feed";
            all.mistakes.push(Mistake { line, text: text.into() });
        }
        let code = line.split('#').next().unwrap_or("");
        last = Place { line: i + 1, column: code.trim_end().chars().count() + 1 };
        all.read_line(code, i + 1);
    }
    all.list.push((Token::End, last));
    all
}

impl Tokens {
    fn read_line(&mut self, code: &str, line: usize) {
        let (mut rest, mut column) = (code, 1);
        while let Some(first) = rest.chars().next() {
            let place = Place { line, column };
            let (token, length) = match first.is_whitespace() {
                true => (None, first.len_utf8()),
                false => self.read_token(rest, first, place),
            };
            self.list.extend(token.map(|token| (token, place)));
            column += rest[..length].chars().count();
            rest = &rest[length..];
        }
    }

    /// The token at the front and its length; what is none is noted.
    fn read_token(&mut self, rest: &str, first: char, line: Place) -> (Option<Token>, usize) {
        let length = name_length(rest);
        if first.is_ascii_alphabetic() || first == '_' {
            return (Some(Token::Name(rest[..length].to_string())), length);
        }
        if first.is_ascii_digit() {
            let value = rest[..length].parse().ok().map(Token::Number);
            if value.is_none() {
                let text = format!("`{}` is neither a number nor a name", &rest[..length]);
                self.mistakes.push(Mistake { line, text });
            }
            return (value, length);
        }
        if let Some((token, length)) = mark(rest) {
            return (Some(token), length);
        }
        self.mistakes.push(Mistake { line, text: format!("`{first}` means nothing here") });
        (None, first.len_utf8())
    }
}

fn name_length(s: &str) -> usize {
    let hyphened = s.strip_prefix(FETCH_ADD).is_some_and(|behind| plain_length(behind) == 0);
    if hyphened {
        FETCH_ADD.len()
    } else {
        plain_length(s)
    }
}

fn plain_length(s: &str) -> usize {
    s.find(|c: char| !(c.is_ascii_alphanumeric() || c == '_' || c == '\'')).unwrap_or(s.len())
}

fn mark(s: &str) -> Option<(Token, usize)> {
    let fits = |m: &&&str| s.starts_with(**m) && whole(m, s);
    MARKS.iter().find(fits).map(|m| (Token::Mark(m), m.len()))
}

/// A mark that ends in a letter must not run into a name: `:=relaxed` is `:=` and a name.
fn whole(m: &str, s: &str) -> bool {
    !m.ends_with(|c: char| c.is_alphabetic()) || name_length(&s[m.len()..]) == 0
}

#[cfg(test)]
mod tests {
    use super::*;

    fn plain(text: &str) -> Vec<Token> {
        let all = tokens(text);
        assert!(all.mistakes.is_empty(), "{:?}", all.mistakes);
        all.list.into_iter().map(|t| t.0).collect()
    }

    #[test]
    fn marks_are_read_longest_first() {
        let name = |s: &str| Token::Name(s.into());
        let want = [name("x"), Token::Mark(":=rel"), Token::Number(1), Token::End];
        assert_eq!(plain("x :=rel 1 # comment"), want);
        assert_eq!(plain("x:=relaxed")[1], Token::Mark(":="));
        assert_eq!(plain("fetch-add x"), [name("fetch-add"), name("x"), Token::End]);
        assert_eq!(tokens("fetch-adds x").mistakes.len(), 1);
    }

    #[test]
    fn lines_are_counted() {
        let told = |text: &str| {
            let all = tokens(text).mistakes;
            all.iter().map(|e| (e.line.line, e.line.column)).collect::<Vec<(usize, usize)>>()
        };
        assert_eq!(
            told("a\n\nb % é ~ 9x\r\nc # é ?\n $"),
            [(3, 3), (3, 5), (3, 7), (3, 9), (5, 2)]
        );
        assert_eq!(told("a\rb"), [(1, 2)]);
        assert_eq!(tokens("a\nb").list[1].1, 2);
    }
}
