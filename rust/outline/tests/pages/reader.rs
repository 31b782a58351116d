//! A reader of markup: every tag is closed in its turn, every attribute is quoted, nothing else looks like a tag.

/// A tag as it was opened, with its attributes.
#[derive(Debug, Clone)]
pub struct Tag {
    pub name: String,
    pub attributes: Vec<(String, String)>,
}

impl Tag {
    pub fn get(&self, name: &str) -> Option<&str> {
        self.attributes.iter().find(|(n, _)| n == name).map(|(_, value)| value.as_str())
    }

    pub fn has_class(&self, class: &str) -> bool {
        self.get("class").is_some_and(|all| all.split(' ').any(|one| one == class))
    }
}

const VOID: [&str; 3] = ["meta", "br", "hr"];

/// All tags in order; panics where the text is not well formed.
pub fn tags(text: &str) -> Vec<Tag> {
    let mut rest = text.strip_prefix("<!DOCTYPE html>\n").unwrap_or(text);
    let (mut all, mut open) = (Vec::new(), Vec::<String>::new());
    while let Some(at) = rest.find('<') {
        let raw = open.last().is_some_and(|tag| tag == "style");
        assert!(raw || !rest[..at].contains('>'), "a stray mark: {}", &rest[..at]);
        rest = &rest[at + 1..];
        let end = rest.find('>').expect("a tag ends");
        let inner = &rest[..end];
        rest = &rest[end + 1..];
        if let Some(name) = inner.strip_prefix('/') {
            assert_eq!(open.pop().as_deref(), Some(name), "closed in its turn");
            continue;
        }
        let tag = tag(inner);
        if !VOID.contains(&tag.name.as_str()) {
            open.push(tag.name.clone());
        }
        all.push(tag);
    }
    assert!(open.is_empty(), "left open: {open:?}");
    all
}

fn tag(inner: &str) -> Tag {
    let (name, mut rest) = inner.split_once(' ').unwrap_or((inner, ""));
    assert!(name.chars().all(|c| c.is_ascii_alphanumeric()), "a tag's name: {name}");
    let mut attributes = Vec::new();
    while !rest.is_empty() {
        let (name, behind) = rest.split_once("=\"").expect("an attribute is quoted");
        let (value, behind) = behind.split_once('"').expect("a quote ends");
        assert!(name.chars().all(|c| c.is_ascii_alphabetic() || c == '-'), "{name}");
        attributes.push((name.to_string(), value.to_string()));
        rest = behind.strip_prefix(' ').unwrap_or(behind);
    }
    Tag { name: name.to_string(), attributes }
}

/// How many tags are of a class.
pub fn count(tags: &[Tag], class: &str) -> usize {
    tags.iter().filter(|tag| tag.has_class(class)).count()
}
