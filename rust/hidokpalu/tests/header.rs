//! The numbers of this crate are those of the C header, and it calls each function that the header declares.

use std::collections::BTreeMap;

const HEADER: &str = include_str!("../../../include/hidokpalu.h");
const NUMBERS: &str = include_str!("../src/header.rs");
const CALLS: &str = include_str!("../src/calls.rs");

/// The text without comments, as words.
fn words(text: &str) -> Vec<String> {
    let mut parts = text.split("/*");
    let first = parts.next().unwrap_or_default().to_string();
    let behind = parts.map(|part| part.split_once("*/").expect("a comment ends").1);
    let text: String = behind.fold(first, |text, part| text + part);
    text.replace([',', '{', '}'], " ").split_whitespace().map(str::to_string).collect()
}

/// `#define NAME 7` and `NAME = 7`, and a name for another name.
fn constants() -> BTreeMap<String, String> {
    let words = words(HEADER);
    let named = words.windows(3).filter_map(|three| match three {
        [define, name, value] if define == "#define" => Some((name, value)),
        [name, is, value] if is == "=" => Some((name, value)),
        _ => None,
    });
    let short = |text: &String| text.replace("HIDOKPALU_", "");
    named
        .filter(|(_, value)| value.starts_with(|c: char| c.is_ascii_digit() || c == 'H'))
        .map(|(name, value)| (short(name), short(value)))
        .collect()
}

#[test]
fn every_constant_of_the_header_has_its_number_here() {
    let lines = NUMBERS.lines().filter_map(|line| line.strip_prefix("pub const "));
    let here: BTreeMap<String, String> = lines
        .map(|line| {
            let (name, rest) = line.split_once(": ").expect("a type");
            let (_, value) = rest.split_once(" = ").expect("a value");
            (name.to_string(), value.trim_end_matches(';').replace('_', ""))
        })
        .collect();
    let there: BTreeMap<String, String> =
        constants().into_iter().map(|(name, value)| (name, value.replace('_', ""))).collect();
    assert!(there.len() > 60, "{there:?}");
    assert_eq!(here, there);
}

/// The functions of the header and of the declarations, each with how many parameters it has, in order.
#[test]
fn every_function_of_the_header_is_declared_with_its_parameters() {
    let there: Vec<(String, Vec<String>)> = HEADER
        .split("\nuint16_t ")
        .skip(1)
        .map(|text| {
            let (name, rest) = text.split_once('(').expect("parameters");
            let (inner, _) = rest.split_once(");").expect("an end");
            (name.to_string(), inner.split(',').map(in_rust).collect())
        })
        .collect();
    let (_, block) = CALLS.split_once("mod archive {").expect("the declarations");
    let (block, _) = block.split_once("\n}\n").expect("an end");
    let here: Vec<(String, Vec<String>)> = block
        .split("pub fn ")
        .skip(1)
        .map(|text| {
            let (name, rest) = text.split_once('(').expect("parameters");
            let (inner, result) = rest.split_once(')').expect("an end");
            assert!(result.trim_start().starts_with("-> u16;"), "{name}");
            let parameters = inner.split(',').map(str::trim).filter(|part| !part.is_empty());
            (name.to_string(), parameters.map(str::to_string).collect())
        })
        .collect();
    assert_eq!(there.len(), 12);
    assert_eq!(here, there);
}

/// A parameter of C as Rust declares it: `const uint8_t *image` is `image: *const u8`.
fn in_rust(parameter: &str) -> String {
    let text = parameter.split_whitespace().collect::<Vec<_>>().join(" ");
    let (kind, name) = text.rsplit_once([' ', '*']).expect("a type and a name");
    let pointer = text.contains('*');
    let constant = kind.starts_with("const ");
    let bare = kind.trim_start_matches("const ").trim_end_matches(['*', ' ']);
    let bare = match bare {
        "uint8_t" => "u8",
        "uint16_t" => "u16",
        "uint32_t" => "u32",
        "size_t" => "usize",
        other => panic!("no type `{other}`"),
    };
    match (pointer, constant) {
        (true, true) => format!("{name}: *const {bare}"),
        (true, false) => format!("{name}: *mut {bare}"),
        (false, _) => format!("{name}: {bare}"),
    }
}
