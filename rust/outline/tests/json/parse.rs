//! A reader of JSON, strict: what it does not know is no JSON.

/// A value. Numbers are whole here.
#[derive(Debug, Clone, PartialEq)]
pub enum Json {
    Null,
    Bool(bool),
    Number(i64),
    Text(String),
    List(Vec<Json>),
    Object(Vec<(String, Json)>),
}

impl Json {
    pub fn get(&self, name: &str) -> Option<&Json> {
        match self {
            Json::Object(members) => members.iter().find(|(n, _)| n == name).map(|(_, v)| v),
            _ => None,
        }
    }

    pub fn list(&self) -> &[Json] {
        match self {
            Json::List(all) => all,
            _ => &[],
        }
    }

    pub fn text(&self) -> Option<&str> {
        match self {
            Json::Text(text) => Some(text),
            _ => None,
        }
    }

    pub fn number(&self) -> Option<i64> {
        match self {
            Json::Number(number) => Some(*number),
            _ => None,
        }
    }
}

/// The value that a text is; panics where it is none.
pub fn parse(text: &str) -> Json {
    let letters: Vec<char> = text.chars().collect();
    let mut reader = Reader { letters: &letters, at: 0 };
    let value = reader.value();
    reader.space();
    assert_eq!(reader.at, letters.len(), "something follows: {text}");
    value
}

struct Reader<'a> {
    letters: &'a [char],
    at: usize,
}

impl Reader<'_> {
    fn space(&mut self) {
        while self.letters.get(self.at).is_some_and(|c| " \n\t\r".contains(*c)) {
            self.at += 1;
        }
    }

    fn next(&mut self) -> char {
        self.at += 1;
        *self.letters.get(self.at - 1).expect("the text goes on")
    }

    /// Whether this letter comes next, behind spaces; it is taken.
    fn takes(&mut self, letter: char) -> bool {
        self.space();
        let is = self.letters.get(self.at) == Some(&letter);
        self.at += usize::from(is);
        is
    }

    fn value(&mut self) -> Json {
        self.space();
        match self.next() {
            '{' => Json::Object(self.members()),
            '[' => Json::List(self.items()),
            '"' => Json::Text(self.string()),
            't' => self.word("rue", Json::Bool(true)),
            'f' => self.word("alse", Json::Bool(false)),
            'n' => self.word("ull", Json::Null),
            first => self.digits(first),
        }
    }

    fn word(&mut self, rest: &str, value: Json) -> Json {
        rest.chars().for_each(|letter| assert_eq!(self.next(), letter));
        value
    }

    fn digits(&mut self, first: char) -> Json {
        let mut text = String::from(first);
        while self.letters.get(self.at).is_some_and(char::is_ascii_digit) {
            text.push(self.next());
        }
        assert!(text == "0" || !text.starts_with('0'), "a number: {text}");
        Json::Number(text.parse().expect("a whole number"))
    }

    fn string(&mut self) -> String {
        let mut out = String::new();
        loop {
            match self.next() {
                '"' => return out,
                '\\' => out.push(self.escaped()),
                c => {
                    assert!((c as u32) >= 32, "a control character");
                    out.push(c);
                }
            }
        }
    }

    fn escaped(&mut self) -> char {
        match self.next() {
            'n' => '\n',
            'u' => {
                let digits: String = (0..4).map(|_| self.next()).collect();
                let number = u32::from_str_radix(&digits, 16).expect("four digits");
                char::from_u32(number).expect("a character")
            }
            c if "\"\\/".contains(c) => c,
            c => panic!("an escape: {c}"),
        }
    }

    fn items(&mut self) -> Vec<Json> {
        let mut all = Vec::new();
        if self.takes(']') {
            return all;
        }
        loop {
            all.push(self.value());
            if self.takes(']') {
                return all;
            }
            assert!(self.takes(','), "a comma");
        }
    }

    fn members(&mut self) -> Vec<(String, Json)> {
        let mut all: Vec<(String, Json)> = Vec::new();
        if self.takes('}') {
            return all;
        }
        loop {
            assert!(self.takes('"'), "a name");
            let name = self.string();
            assert!(all.iter().all(|(other, _)| *other != name), "{name} twice");
            assert!(self.takes(':'), "a colon");
            all.push((name, self.value()));
            if self.takes('}') {
                return all;
            }
            assert!(self.takes(','), "a comma");
        }
    }
}
