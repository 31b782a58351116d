//! The comment at the front of an outline: paragraphs, and fields.

/// What an outline's header says.
#[derive(Debug, Default)]
pub struct Header {
    /// The first paragraph.
    pub first: String,
    /// Behind "Shown:" or, where it stays open, "Claimed:".
    pub shown: String,
    /// The field `from`: where the program comes from.
    pub from: String,
    /// The field `theorem`: the theorem by which it is true in every run.
    pub theorem: String,
    /// The field `open`: why an obligation stays open.
    pub open: String,
}

/// Paragraphs of the comment, each in one line. A field is a paragraph of its own.
fn paragraphs(text: &str) -> Vec<String> {
    let mut all: Vec<String> = vec![String::new()];
    let comment = text.lines().map_while(|line| line.strip_prefix('#'));
    for line in comment.map(str::trim) {
        let begins = ["from: ", "theorem: ", "open: ", "refused: ", "Build with"];
        if line.is_empty() || begins.iter().any(|field| line.starts_with(field)) {
            all.push(String::new());
        }
        let last = all.last_mut().expect("a paragraph is open");
        if !last.is_empty() && !line.is_empty() {
            last.push(' ');
        }
        last.push_str(line);
    }
    all.retain(|paragraph| !paragraph.is_empty());
    all
}

/// What stands behind a word and the next colon, without the last full stop.
fn behind(paragraph: &str, word: &str) -> Option<String> {
    let at = paragraph.find(word)?;
    let (_, said) = paragraph[at..].split_once(": ")?;
    Some(said.trim_end_matches('.').to_string())
}

impl Header {
    pub fn of(text: &str) -> Result<Header, String> {
        let all = paragraphs(text);
        let field = |name: &str| {
            let found = all.iter().find_map(|p| p.strip_prefix(name));
            found.map(|p| p.trim_end_matches('.').to_string()).unwrap_or_default()
        };
        let shown = ["Shown", "Claimed"].iter();
        let shown = shown.flat_map(|word| all.iter().filter_map(|p| behind(p, word))).next();
        let header = Header {
            first: all.first().ok_or("no header")?.trim_end_matches('.').to_string(),
            shown: shown.unwrap_or_default(),
            from: field("from: "),
            theorem: field("theorem: "),
            open: field("open: "),
        };
        let whole = [&header.first, &header.shown, &header.from, &header.theorem, &header.open];
        match whole.iter().any(|field| field.contains('|')) {
            true => Err("a header with `|` does not fit into a table".into()),
            false => Ok(header),
        }
    }
}
