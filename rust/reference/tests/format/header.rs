//! The C header beside the page: its constants and its functions.

use crate::page::{file, number, spans, tables};

/// The text of the header.
pub fn header() -> String {
    file("include/hidokpalu.h")
}

/// Every constant of the header that has a number, with it.
pub fn constants() -> Vec<(String, u32)> {
    let text = uncommented(&header()).replace([',', '{', '}'], " ");
    let words: Vec<&str> = text.split_whitespace().collect();
    let mut found: Vec<(String, u32)> = words.windows(3).filter_map(constant).collect();
    found.sort();
    found
}

fn uncommented(text: &str) -> String {
    let mut parts = text.split("/*");
    let first = parts.next().unwrap_or_default().to_string();
    let behind = parts.map(|part| part.split_once("*/").expect("a comment ends").1);
    behind.fold(first, |text, part| text + part)
}

/// `#define NAME 7` or `NAME = 7`.
fn constant(words: &[&str]) -> Option<(String, u32)> {
    let (name, value) = match *words {
        ["#define", name, value] | [name, "=", value] => (name, value),
        _ => return None,
    };
    assert!(name.starts_with("HIDOKPALU_"), "{name}");
    Some((name.to_string(), value.parse().ok()?))
}

/// The columns whose number a name of the header stands for.
const NUMBERED: [&str; 6] = ["Code", "Class", "Place", "Right", "Most", "Number"];

#[test]
fn every_constant_is_on_the_page_once_with_its_number() {
    let mut told = Vec::new();
    for table in tables() {
        let Some(names) = table.column("Name in the header") else {
            continue;
        };
        let place = NUMBERED.iter().find_map(|title| table.column(title)).expect("a number");
        for row in &table.rows {
            let (codes, _) = spans(&row[names]);
            told.extend(codes.into_iter().map(|name| (name.to_string(), number(&row[place]))));
        }
    }
    told.sort();
    let constants = constants();
    assert!(constants.len() > 60, "{constants:?}");
    assert_eq!(told, constants);
}

/// The functions that the header declares, in order.
pub fn functions() -> Vec<String> {
    let text = header();
    let declared = text.lines().filter_map(|line| line.strip_prefix("uint16_t "));
    declared.map(|rest| rest.split('(').next().expect("a name").to_string()).collect()
}
