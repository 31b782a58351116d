//! The two readers of C under damage: whatever stands in the text, there is an answer or a refusal with a place in it.

use outline::c::lex::{tokens, Form};
use outline::c::Refusal;
use outline::fuzz::dice::Dice;
use outline::import::file::File;
use outline::import::program;
use outline::litmus::read::read;
use reference::explore::Bounds;
use std::path::Path;

/// So that a loop which counts does not take long.
const BOUNDS: Bounds = Bounds { steps: 12, writes: 4, starts: 1, states: 2_000 };

const ROUNDS: usize = 20_000;

/// Parts of C that are put where they do not belong.
const PARTS: [&str; 40] = [
    "{",
    "}",
    "(",
    ")",
    ";",
    ",",
    "=",
    "==",
    "+",
    "&",
    "*",
    "!",
    "&&",
    "||",
    "if",
    "else",
    "while",
    "do",
    "for",
    "goto L",
    "L:",
    "break",
    "continue",
    "return",
    "int",
    "int r9 = 1;",
    "r0",
    "x",
    "99",
    "0x",
    "\"",
    "'",
    "/*",
    "*/",
    "//@ { x }\n",
    "(*",
    "exists",
    "\\/",
    "#",
    "é",
];

fn examples() -> Vec<String> {
    let folder = Path::new(env!("CARGO_MANIFEST_DIR")).join("../../examples/litmus");
    let mut files: Vec<_> = std::fs::read_dir(folder)
        .expect("examples")
        .map(|entry| entry.expect("an entry").path())
        .collect();
    files.sort();
    let tests = files.iter().filter(|file| file.extension().is_some_and(|end| end == "litmus"));
    tests.map(|file| std::fs::read_to_string(file).expect("read")).collect()
}

const C: &str = "atomic_int x = 1, y;\n//@ never a L4 and b L9\nvoid a(void) {\n  int r0 = atomic_load_explicit(&x, memory_order_acquire);\n  \
    if (r0 == 1 && atomic_load_explicit(&y, memory_order_relaxed) != 2) { r0 = 1 + 1; } else r0 = 2;\n  atomic_store_explicit(&y, r0, memory_order_release);\n}\n\
    void *b(void *p) {\n  do { (void)p; } while (atomic_exchange_explicit(&x, 1, memory_order_acq_rel));\n  for (int i = 0; i < 2;) { break; }\n  return 0;\n}\n";

/// The text with a few parts cut out, doubled, changed or put in.
fn damaged(dice: &mut Dice, text: &str) -> String {
    let mut text: Vec<char> = text.chars().collect();
    for _ in 0..=dice.below(3) {
        let from = dice.below(text.len().max(1)).min(text.len());
        let to = (from + dice.below(12)).min(text.len());
        let part: Vec<char> = match dice.below(4) {
            0 => vec![],
            1 => [&text[from..to], &text[from..to]].concat(),
            2 => vec![char::from(dice.below(128) as u8); 1],
            _ => dice.pick(&PARTS).chars().collect(),
        };
        text.splice(from..to, part);
    }
    text.into_iter().collect()
}

/// A refusal names a place of the text, or the line behind its last one.
fn is_placed(text: &str, refusal: &Refusal) {
    let lines = text.split('\n').count();
    let line = refusal.at.place.line;
    assert!(
        (1..=lines + 1).contains(&line),
        "{}:{}: {}\n{text}",
        line,
        refusal.at.place.column,
        refusal.text
    );
    assert!(!refusal.text.is_empty());
}

#[test]
fn damaged_litmus_tests_are_answered_or_refused_with_a_place() {
    let (examples, mut dice) = (examples(), Dice::of(7));
    let (mut read_well, mut refused) = (0, 0);
    for _ in 0..ROUNDS {
        let from = dice.pick(&examples).clone();
        let text = damaged(&mut dice, &from);
        match read(&text, BOUNDS) {
            Ok(litmus) => read_well += usize::from(!litmus.name.is_empty()),
            Err(refusal) => {
                is_placed(&text, &refusal);
                refused += 1;
            }
        }
    }
    assert!(
        read_well > ROUNDS / 100 && refused > ROUNDS / 10,
        "{read_well} read, {refused} refused"
    );
}

#[test]
fn damaged_c_files_are_read_or_refused_with_a_place() {
    let mut dice = Dice::of(11);
    let (mut read_well, mut refused) = (0, 0);
    for _ in 0..ROUNDS {
        let text = damaged(&mut dice, C);
        let file =
            tokens(&text, Form::Preprocessed, 0, "f.c").and_then(|tokens| File::of(&tokens.list));
        match file.and_then(|file| program(&file, &[], BOUNDS)) {
            Ok(imported) => read_well += usize::from(!imported.whole.functions.is_empty()),
            Err(refusal) => {
                // A line marker that the damage makes may name any line.
                if !text.contains('#') {
                    is_placed(&text, &refusal);
                }
                refused += 1;
            }
        }
    }
    assert!(
        read_well > ROUNDS / 100 && refused > ROUNDS / 10,
        "{read_well} read, {refused} refused"
    );
}
