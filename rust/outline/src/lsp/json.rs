//! Reading JSON. What is written goes through `command::json`.

/// A value. A number is kept as it is written, so that the id of a request goes back unchanged.
#[derive(Debug, Clone, PartialEq)]
pub enum Json {
    Null,
    Bool(bool),
    Number(String),
    Text(String),
    List(Vec<Json>),
    Object(Vec<(String, Json)>),
}

/// Values stand at most so deep inside each other.
const MOST_DEPTH: usize = 100;

impl Json {
    /// The value that a text is, or none.
    pub fn read(text: &str) -> Option<Json> {
        let mut reader = Reader { rest: text };
        let value = reader.value(0)?;
        reader.space();
        reader.rest.is_empty().then_some(value)
    }

    /// A member of an object; of several with one name the last.
    pub fn get(&self, name: &str) -> Option<&Json> {
        match self {
            Json::Object(members) => members.iter().rev().find(|(n, _)| n == name).map(|(_, v)| v),
            _ => None,
        }
    }

    /// A member of a member, and so on.
    pub fn at(&self, path: &[&str]) -> Option<&Json> {
        path.iter().try_fold(self, |value, name| value.get(name))
    }

    pub fn text(&self) -> Option<&str> {
        match self {
            Json::Text(text) => Some(text),
            _ => None,
        }
    }

    pub fn list(&self) -> &[Json] {
        match self {
            Json::List(all) => all,
            _ => &[],
        }
    }

    /// A whole number from 0 on.
    pub fn number(&self) -> Option<usize> {
        match self {
            Json::Number(number) => number.parse().ok(),
            _ => None,
        }
    }
}

struct Reader<'a> {
    rest: &'a str,
}

impl Reader<'_> {
    fn space(&mut self) {
        self.rest = self.rest.trim_start_matches([' ', '\n', '\t', '\r']);
    }

    /// Takes a text that is next, behind spaces.
    fn takes(&mut self, text: &str) -> bool {
        self.space();
        let behind = self.rest.strip_prefix(text);
        self.rest = behind.unwrap_or(self.rest);
        behind.is_some()
    }

    fn value(&mut self, depth: usize) -> Option<Json> {
        if depth == MOST_DEPTH {
            return None;
        }
        for (word, value) in
            [("null", Json::Null), ("true", Json::Bool(true)), ("false", Json::Bool(false))]
        {
            if self.takes(word) {
                return Some(value);
            }
        }
        if self.takes("\"") {
            return self.string().map(Json::Text);
        }
        if self.takes("[") {
            return self.items(depth).map(Json::List);
        }
        if self.takes("{") {
            return self.members(depth).map(Json::Object);
        }
        self.digits()
    }

    fn digits(&mut self) -> Option<Json> {
        let is_of_number = |c: char| c.is_ascii_digit() || "+-.eE".contains(c);
        let end = self.rest.find(|c| !is_of_number(c)).unwrap_or(self.rest.len());
        let (number, rest) = self.rest.split_at(end);
        let whole = number.strip_prefix('-').unwrap_or(number);
        let begins = whole.starts_with(|c: char| c.is_ascii_digit());
        let zeros = whole.len() > 1 && whole.starts_with('0') && !whole.starts_with("0.");
        let is_number = begins && !zeros && number.parse::<f64>().is_ok_and(f64::is_finite);
        self.rest = rest;
        is_number.then(|| Json::Number(number.into()))
    }

    fn items(&mut self, depth: usize) -> Option<Vec<Json>> {
        let mut all = Vec::new();
        if self.takes("]") {
            return Some(all);
        }
        loop {
            all.push(self.value(depth + 1)?);
            if self.takes("]") {
                return Some(all);
            }
            self.takes(",").then_some(())?;
        }
    }

    fn members(&mut self, depth: usize) -> Option<Vec<(String, Json)>> {
        let mut all = Vec::new();
        if self.takes("}") {
            return Some(all);
        }
        loop {
            self.takes("\"").then_some(())?;
            let name = self.string()?;
            self.takes(":").then_some(())?;
            all.push((name, self.value(depth + 1)?));
            if self.takes("}") {
                return Some(all);
            }
            self.takes(",").then_some(())?;
        }
    }

    fn next(&mut self) -> Option<char> {
        let first = self.rest.chars().next()?;
        self.rest = &self.rest[first.len_utf8()..];
        Some(first)
    }

    /// A text behind its first quotation mark.
    fn string(&mut self) -> Option<String> {
        let mut out = String::new();
        loop {
            match self.next()? {
                '"' => return Some(out),
                '\\' => out.push(self.escaped()?),
                c if (c as u32) < 32 => return None,
                c => out.push(c),
            }
        }
    }

    fn escaped(&mut self) -> Option<char> {
        Some(match self.next()? {
            'n' => '\n',
            't' => '\t',
            'r' => '\r',
            'b' => '\u{8}',
            'f' => '\u{c}',
            'u' => return self.unit(),
            c @ ('"' | '\\' | '/') => c,
            _ => return None,
        })
    }

    /// Four digits behind `\u`; two halves of a pair are one character, and half of one is none.
    fn unit(&mut self) -> Option<char> {
        let first = self.four()?;
        if !(0xD800..0xDC00).contains(&first) {
            return Some(char::from_u32(first).unwrap_or(char::REPLACEMENT_CHARACTER));
        }
        let before = self.rest;
        if let Some(behind) = self.rest.strip_prefix("\\u") {
            self.rest = behind;
            let second = self.four()?;
            if (0xDC00..0xE000).contains(&second) {
                return char::from_u32(0x10000 + ((first - 0xD800) << 10) + (second - 0xDC00));
            }
        }
        self.rest = before;
        Some(char::REPLACEMENT_CHARACTER)
    }

    fn four(&mut self) -> Option<u32> {
        let digits = self.rest.get(..4).filter(|d| d.bytes().all(|b| b.is_ascii_hexdigit()))?;
        self.rest = &self.rest[4..];
        u32::from_str_radix(digits, 16).ok()
    }
}

#[cfg(test)]
mod tests {
    use super::*;

    #[test]
    fn values_are_read() {
        let read = Json::read(" {\"a\" : [1, -2.5e3, \"x\\u00e9\\ud83d\\ude00\\n\"], \"b\":{}} ")
            .expect("JSON");
        assert_eq!(read.at(&["a"]).expect("a list").list()[2].text(), Some("xé😀\n"));
        assert_eq!(read.at(&["a"]).expect("a list").list()[0].number(), Some(1));
        assert_eq!(read.at(&["a"]).expect("a list").list()[1].number(), None);
        assert_eq!(Json::read("\"\\ud800x\"").expect("a text").text(), Some("\u{fffd}x"));
    }

    #[test]
    fn what_is_none_is_not_read() {
        let deep = "[".repeat(100_000);
        for text in [
            "",
            "{",
            "[1,]",
            "{\"a\" 1}",
            "nul",
            "01",
            "\"a",
            "\"\n\"",
            "1 2",
            "{a:1}",
            "\"\\u12\"",
            "-",
            &deep,
        ] {
            assert_eq!(Json::read(text), None, "{text}");
        }
    }
}
