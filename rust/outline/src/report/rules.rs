//! A few words for each rule: the headings of docs/MANUAL.md.

use super::sha256::digest;
use reference::checker::rules::rules;
use std::collections::BTreeMap;
use std::sync::OnceLock;

const MANUAL: &str = include_str!("../../../../docs/MANUAL.md");

/// What a rule is about; nothing for one that the manual does not have.
pub fn title(rule: u8) -> &'static str {
    static TITLES: OnceLock<BTreeMap<u8, &str>> = OnceLock::new();
    TITLES.get_or_init(titles).get(&rule).copied().unwrap_or_default()
}

/// The headings of the form `#### NUMBER. WORDS`.
fn titles() -> BTreeMap<u8, &'static str> {
    let headings = MANUAL.lines().filter_map(|line| line.strip_prefix("#### "));
    let parts = headings.filter_map(|heading| heading.split_once(". "));
    parts.filter_map(|(number, words)| Some((number.parse().ok()?, words))).collect()
}

/// What the manual says of a rule, its heading first.
pub fn text(rule: u8) -> Option<&'static str> {
    let heading = format!("#### {rule}. ");
    let from = MANUAL.find(&format!("\n{heading}"))? + 1;
    let rest = &MANUAL[from + heading.len()..];
    let length = rest.find("\n##").unwrap_or(rest.len());
    Some(MANUAL[from..from + heading.len() + length].trim_end())
}

/// Which rules there are, and the digest of the manual's chapter that states them.
pub fn version() -> String {
    let mut ranges: Vec<(u8, u8)> = Vec::new();
    for rule in rules() {
        match ranges.last_mut() {
            Some((_, last)) if *last + 1 == rule => *last = rule,
            _ => ranges.push((rule, rule)),
        }
    }
    let ranges: Vec<String> = ranges.iter().map(|(a, b)| format!("{a} to {b}")).collect();
    let (_, chapter) = MANUAL.split_once("\n## 4. The rules\n").expect("a chapter of rules");
    let chapter = chapter.split("\n## ").next().unwrap_or_default();
    format!(
        "{} (SHA-256 {} of their chapter)",
        ranges.join(", "),
        &digest(chapter.as_bytes())[..16]
    )
}

#[cfg(test)]
mod tests {
    use super::{text, title, version};

    #[test]
    fn the_version_has_every_rule() {
        assert!(version().starts_with("1 to 16, 20 to 27, 30 to 50 (SHA-256 "), "{}", version());
    }

    #[test]
    fn rules_have_the_titles_of_the_manual() {
        assert_eq!(title(8), "A releasing store hands over");
        assert!((1..=16).chain(20..=27).chain(30..=49).all(|rule| !title(rule).is_empty()));
        assert_eq!(title(19), "");
        let told = text(8).expect("a rule");
        assert!(
            told.starts_with("#### 8. A releasing store hands over\n") && !told.contains("#### 9")
        );
        assert!((1..=16).chain(20..=27).chain(30..=50).all(|rule| text(rule).is_some()));
    }
}
