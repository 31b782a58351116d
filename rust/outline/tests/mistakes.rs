//! Mistakes of sources at their places, several at once, with the word that was probably meant.

use outline::text::parse_source::{parse, parse_all};
use std::process::Command;

/// Mistakes with their line and column, as they are told.
fn all_told(text: &str) -> Vec<(usize, usize, String)> {
    let all = parse_all(text).expect_err(text);
    all.into_iter().map(|e| (e.line.line, e.line.column, e.text)).collect()
}

/// What is one too many is told where it stands, and what is missing only where nothing else is wrong.
#[test]
fn counts_are_told_at_their_place() {
    let words: String = (1..=9).map(|n| format!("word x{n} = 0\n")).collect();
    let thread = "thread a { true }\n";
    let told = all_told(&format!("{words}{thread}"));
    assert_eq!(told, [(9, 6, "9 words; an image has at most 8".to_string())]);
    let registers: String = (1..=17).map(|n| format!("register r{n} of a\n")).collect();
    let told = all_told(&format!("word x = 0\n{registers}{thread}"));
    assert_eq!(told, [(18, 10, "17 registers; an image has at most 16".to_string())]);
    let told = all_told("word x = 0\n# no thread\n\n");
    assert_eq!(told, [(3, 1, "0 threads; an image has 1 to 4".to_string())]);
    assert_eq!(all_told("word x = 9\nthread a { true }")[0].1, 10, "the start value, not the name");
}

#[test]
fn the_likely_keyword_is_told() {
    let item = "`range`, `word`, `register`, `let`, `thread`, `never`, `proof` or `certificate`";
    for (text, line, column, want) in [
        (
            "wrod x = 0\nthread a { a sees [x = 0] }",
            1,
            1,
            "ITEM is wanted, found `wrod`: is `word` meant?",
        ),
        (
            "word x = 0\nthraed a { a sees [x = 0] }",
            2,
            1,
            "ITEM is wanted, found `thraed`: is `thread` meant?",
        ),
        (
            "word x = 0\nthread a\nregsters r { r = 0 }",
            3,
            1,
            "a point, `{ ASSERTION }`, is wanted, found `regsters`: is `registers` meant?",
        ),
        (
            "word x = 0\nthread a { a seees [x = 0] }",
            2,
            14,
            "`sees` is wanted, found `seees`: is `sees` meant?",
        ),
        (
            "word flag = 0\nthread a { a sees [flgs = 0] }",
            2,
            20,
            "a value is wanted, but `flgs` is not declared: is `flag` meant?",
        ),
        (
            "word flag = 0\nthread a { a sees [unsynch flag] }",
            2,
            20,
            "a value is wanted, but `unsynch` is not declared: is `unsync` meant?",
        ),
        (
            "word flag = 0\nthread a { true } flga := 1 { true }",
            2,
            19,
            "`flga` is not declared: is `flag` meant?",
        ),
        (
            "word x = 0\nthread a { true } swpa x := 1 { true }",
            2,
            19,
            "an instruction (or the thread's end) is wanted, found `swpa`: is `swap` meant?",
        ),
    ] {
        let want = want.replace("ITEM", item);
        assert_eq!(all_told(text), [(line, column, want)], "{text}");
    }
}

/// Mistakes of signs, of declarations and of formulas, told together in the order of the text.
#[test]
fn mistakes_of_every_kind_are_told_at_once() {
    let text = "range 99\nword x = 0\nword x = 1\nword y = 77\nlet P = a sees [x = 0] ?\n\
        thread a\n  registers r\n  { P }\n    r <- z\n  { r = ! 0 }\nthread a { true }\n";
    let told = all_told(text);
    let places: Vec<(usize, usize)> =
        told.iter().map(|(line, column, _)| (*line, *column)).collect();
    assert_eq!(places, [(1, 7), (3, 6), (4, 10), (5, 24), (9, 10), (10, 9), (11, 8)], "{told:?}");
}

/// A second part of its kind, and numbers that do not fit a byte, are told and not taken for others.
#[test]
fn nothing_is_taken_for_something_else() {
    let front = "word x = 0\nthread a { true } x := 1 { true }\n";
    let step = |point: &str, rule: &str| {
        format!("{front}proof\nstep a {point}: {{ true }} to {{ true }} by {rule}\n")
    };
    assert!(parse(&step("0", "16")).is_ok());
    assert_eq!(all_told(&step("256", "16")), [(4, 8, "there is no point 256".to_string())]);
    assert_eq!(all_told(&step("0", "272"))[0].2, "there is no rule 272");
    let part = "certificate\nformula 1: assertion true\nformula 2: value 1\nline 1: rule 20 1 to 1\nobligations 0 0\n";
    assert!(parse(&format!("{front}{part}")).is_ok());
    let twice = all_told(&format!("{front}{part}{part}"));
    assert_eq!(twice, [(8, 1, "there is a part `certificate` already".to_string())]);
}

#[test]
fn many_mistakes_are_told_in_part() {
    let (status, _, err) = {
        let text = format!("word x = 0\nthread a {{ true }}\n{}", "%\n".repeat(100));
        let folder = std::env::temp_dir().join(format!("outline-many-{}", std::process::id()));
        std::fs::create_dir_all(&folder).expect("a place for files");
        let file = folder.join("m.outline");
        std::fs::write(&file, text).expect("written");
        let tool = Command::new(env!("CARGO_BIN_EXE_outline"))
            .arg("build")
            .arg(&file)
            .args(["-o", "-"])
            .output();
        let output = tool.expect("run");
        std::fs::remove_dir_all(&folder).expect("cleared away");
        let err = String::from_utf8(output.stderr).expect("text");
        (output.status.code(), output.stdout, err)
    };
    assert_eq!((status, err.lines().count()), (Some(2), 3 * 20 + 1));
    assert!(err.ends_with("m.outline: and 80 mistakes more\n"), "{err}");
}
